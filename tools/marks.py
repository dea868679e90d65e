#!/usr/bin/env python3
"""Writes the lemmas that each step keeps what the marks of scans agree on, a file for each group of steps:
crates/smc_inv_scan/proofs/MarksGroup.antt and EachMarks.antt. The table of the kinds is kinds.py."""
import os
import sys

sys.path.insert(0, os.path.dirname(os.path.abspath(__file__)))
from kinds import K, GROUPS
import facts as T

TOP = os.path.dirname(os.path.dirname(os.path.abspath(__file__)))
FOLDER = os.path.join(TOP, "crates", "smc_inv_scan", "proofs")
FACTS = {"m_began": ("i k' c' a' e' b' li is bg", "i k' c' a' e' b' li"), "m_given": ("i k' c' a' e' b' li is vs", "i k' c' a' e' b' li"), "m_coll": ("i k' c' a' e' b' li is vs", "i k' c' a' e' b' li"),
         "m_met": ("i k' c' a' e' s' b' li is of bg pr lt", "i k' c' a' e' s' b' li"), "m_once": ("i k' c' a' e' s' b' li is vs pr", "i k' c' a' e' s' b' li")}
ENTRY = {"m_began", "m_given", "m_met", "m_once"}
MORE = {("store_live", "m_met"): ["mk.m_began i k' c' a' e' b' li"], ("store_live", "m_once"): ["mk.m_given i k' c' a' e' b' li"]}
TERM = {}
MINE = "(put_stand-same st.stands p i _ eq)"
N = "(object a' e' c')"


def strip(t):
    return t[1:-1] if t.startswith("(") else t


def grind(terms):
    return "grind (arith, nat_tests" + "".join(", " + t for t in terms) + ")"


def other(fact, marked, more=()):
    """the goal of another pass"""
    t = f"mk.{fact} {FACTS[fact][1]}"
    return grind([t] + list(more) + ([f"put-other ms p i {marked} ne"] if marked else []))


def swings(coll):
    """what a swing leaves of others: none has passed its target, so none has visited its object"""
    led = f"(copies h).j_led p {coll} a e q (copy.Swing t) in_n"
    low = f"r.s_locked i k' {coll} a e q b' li"
    return {"m_met": [low, led], "m_once": [low, f"mk.m_once i k' {coll} a e q b' li", f"mk.m_coll i k' {coll} a e b' li", f"(moves h).locked {coll} a e q", led]}


def now_in(body):
    return f"let now = subst (λ (l : S'.Stand). scan_of l.scans k' ≡ Some b') {MINE} is in {body}".replace("S'.Stand", "Stand")


def of_mine(what, proof):
    return f"(subst (λ (j : ℕ). (ms j).{what} k' {N} ≡ true) eq {proof})"


for f_, more_ in swings("g.coll").items():
    MORE[("f_swing", f_)] = more_


def quiet(kind, mine="", place="", step=""):
    """a step that changes scans and leaves the marks"""
    was = T.WAS[kind]
    ends = not mine
    if ends:
        was_old = f"let (old, was, same, kept) = {was} in "
    else:
        was_old = f"let (old, was, same, at) = {was} in "
    for f, what, hyp in (("m_began", "began", "bg"), ("m_given", "visited", "vs")):
        TERM[(kind, f)] = f"by_eq i p (λ eq. {now_in(was_old)} let given = mk.{f} p k' c' a' e' old in_n was {of_mine(what, hyp)} in {grind(['given'])}) (λ ne. {other(f, False)})"
    TERM[(kind, "m_coll")] = f"by_eq i p (λ eq. {now_in(was_old)} same ∙ mk.m_coll p k' c' a' e' old in_n was {of_mine('visited', 'vs')}) (λ ne. {other('m_coll', False)})"
    met = f"mk.m_met p k' c' a' e' s' old in_n was (sym same ∙ of) {of_mine('began', 'bg')} pr "
    back = "subst (λ (j : ℕ). (ms j).visited k' (object a' e' c') ≡ true) (sym eq) "
    once = f"mk.m_once p k' c' a' e' s' old in_n was {of_mine('visited', 'vs')} pr"
    if ends:
        TERM[(kind, "m_met")] = f"by_eq i p (λ eq. {now_in(was_old)} {back}({met}(subst (λ (z : ℕ). s' < z) kept lt))) (λ ne. {other('m_met', False)})"
        TERM[(kind, "m_once")] = f"by_eq i p (λ eq. {now_in(was_old)} subst (λ (z : ℕ). s' < z) (sym kept) ({once})) (λ ne. {other('m_once', False)})"
        return
    TERM[(kind, "m_met")] = (f"by_eq i p (λ eq. {now_in(was_old)} {back}(elim at [ inl kept ↦ {met}(subst (λ (z : ℕ). s' < z) kept lt) | inr left ↦ (let place_so = {place} in let step_so = {step} in "
                             f"by_eq s' SLOT (λ sl. {mine}) (λ ns. {met}(omega (arith, ns, lt, step_so, place_so.1)))) ])) (λ ne. {other('m_met', False)})").replace("SLOT", SLOT_OF[kind])
    TERM[(kind, "m_once")] = (f"by_eq i p (λ eq. {now_in(was_old)} let before = {once} in elim at [ inl kept ↦ subst (λ (z : ℕ). s' < z) (sym kept) before"
                              f" | inr left ↦ (let place_so = {place} in let step_so = {step} in omega (arith, before, step_so, place_so.1)) ]) (λ ne. {other('m_once', False)})")


SLOT_OF = {"scan_dir": "t", "scan_back": "t", "next_slot": "b1.place"}
AT_SLOT = "(subst (λ (z : ℕ). present_at (state_in st.memory c' e') ≡ Some (a', z)) sl pr)"
HOME = "(sym (sym same ∙ of) ∙ place_so.0)"
for k_, next_, law in (("scan_dir", "(scan.Directory k c t)", "unscanned"), ("scan_back", "(scan.Back k c t)", "unnamed")):
    quiet(k_, f"absurd ({law} sh st h c' a' e' t {AT_SLOT} (subst (λ (z : ℕ). {'is_scanned (dir_in st.memory z t) ≡ false' if law == 'unscanned' else 'back_in st.memory z t ≡ None'}) (sym {HOME}) left.2))",
          f"call_place sh st h r p k c t old (phase.Scan {next_}) in_n at_call refl (subst (λ (z : ℕ). scan_of (st.stands p).scans z ≡ Some old) left.0 was)", "left.1")
quiet("next_slot", f"absurd (unscanned sh st h c' a' e' b1.place {AT_SLOT} (subst (λ (z : ℕ). is_scanned (dir_in st.memory z b1.place) ≡ false) (sym {HOME}) left.2))",
      "subst (IsAt b1.coll b1.place) (sym pre1 ∙ subst (λ (z : ℕ). scan_of (st.stands p).scans z ≡ Some old) left.0 was) (refl, refl)", "left.1")
quiet("next_over")
quiet("scan_end")
for k_ in ("l_fwd", "l_read", "l_put"):
    SLOT_OF[k_] = "0"
    quiet(k_, "absurd (undecided left)", "(absurd (undecided left))", "(absurd (undecided left))")
    for f in ("m_met", "m_once"):
        body = TERM[(k_, f)]
        start = body.index("| inr left ↦")
        end = body.index(" ]", start)
        TERM[(k_, f)] = body[:start] + "| inr left ↦ (let (c0, t0, who0, step0, decided) = left in absurd (cc))" + body[end:]

# steps that change marks
exec(open(__file__.replace("marks.py", "special_marks.py")).read())
MARKING = {k for k, f in TERM if (k, f) in TERM and k in ("look_load", "abandon", "l_swing", "starts_scan")}


def binders(k):
    return "".join(f" ({n} : {t})" for n, t in k["vars"])


def args(k):
    return "".join(" " + n for n, _ in k["vars"])


def pres(k):
    return "".join(f" pre{i + 1}" for i in range(len(k["pre"])))


def term(k, f):
    if (k["name"], f) in TERM:
        return TERM[(k["name"], f)]
    t = [f"mk.{f} {FACTS[f][1]}"]
    if f in ENTRY and k["writes"] == "entry":
        t += [o for o in T.OWN.get(k["name"], []) if "(copies h)" not in o]
    return grind(t + MORE.get((k["name"], f), []))


def lemma(k):
    step = f"{k['choice']} {k['sec']} {k['call']} told {k['op']}"
    pre = "".join(q + " → " for q in k["pre"])
    out = (f"-- kind {k['step']}\npub {k['name']} : (ms : ℕ → Marks) (sh : Layout) (st : S.State) (p : ℕ){binders(k)} (told : ℕ) → p < sh.passes → (st.stands p).section ≡ {strip(k['sec'])} → (st.stands p).phase ≡ {strip(k['call'])}"
           f" → {pre}Shut sh st → ScansAgree sh st → MarksAgree sh st ms → IsHere st\n    → KeepsMarks ms sh st p {step}\n")
    out += f"{k['name']} ms sh st p{args(k)} told in_n at_sec at_call{pres(k)} h r mk hr ="
    body = "record {\n" + "".join(f"  {f} = λ {FACTS[f][0]}. {term(k, f)};\n" for f in FACTS) + "}"
    if k["name"] in MARKING:
        return out + f" {body}\n\n"
    event = f"(change sh p (st.stands p) {k['sec']} {k['call']} {k['choice']} told (seen {k['op']} st.memory)).event"
    return out + f" unmarked sh (did sh st p {step}) ms p st.world {event} (grind (arith, nat_tests)) ({body})\n\n"


HEAD = open(os.path.join(TOP, "tools", "head.txt")).read().rstrip() + open(os.path.join(TOP, "tools", "head_scans.txt")).read() + open(os.path.join(TOP, "tools", "head_marks.txt")).read() + "\n"
for g in GROUPS:
    text = f"-- Steps keep the marks of scans: {g.lower()}. Written by tools/marks.py.\n" + HEAD + "".join(lemma(k) for k in K if k["group"] == g)
    open(os.path.join(FOLDER, "Marks" + g + ".antt"), "w").write(text)
text = "-- Each kind of step keeps the marks of scans. Written by tools/marks.py.\nuse Rattle.std.specs.Prelude.{ℕ}\nuse Rattle.smc_inv_scan.specs.Marks.{Marks}\nuse Rattle.smc_inv_scan.proofs.EachStep.{EachStep}\nuse Rattle.smc_inv_scan.proofs.MarkSteps.{Known, KeepsMarks}\n"
for g in GROUPS:
    text += f"use Rattle.smc_inv_scan.proofs.Marks{g}.{{{', '.join(k['name'] for k in K if k['group'] == g)}}}\n"
text += "\npub marks-each : (ms : ℕ → Marks) → EachStep (Known ms) (KeepsMarks ms)\nmarks-each ms = record {\n"
for k in K:
    text += f"  {k['name']} = λ sh st p{args(k)} told in_n at_sec at_call{pres(k)} h kn. {k['name']} ms sh st p{args(k)} told in_n at_sec at_call{pres(k)} h kn.scans kn.marks kn.here;\n"
open(os.path.join(FOLDER, "EachMarks.antt"), "w").write(text + "}\n")
# the event of each step fits the marks
FIT = {
    "look_load": "load_fits ms sh st h kn p in_n x calm who c a e at_call", "abandon": "abandon_fits ms sh st h kn p in_n x calm who c a e q at_call",
    "l_swing": "swing_fits ms sh st h kn p in_n x calm who c a e q t at_call", "scan_end": "end_fits ms sh st h kn p in_n k at_call",
    "next_over": "next_fits ms sh st h kn p in_n k b1 (st.memory (place.Section p)) pre1 pre2",
}
text = "-- The event of each kind of step fits the marks. Written by tools/marks.py.\n" + HEAD + "use Rattle.smc_inv_scan.proofs.EachStep.{EachStep}\nuse Rattle.smc_inv_scan.proofs.MarkSteps.{Known, EventFits}\nuse Rattle.smc_inv_scan.proofs.FitLaws.{plain_fits, load_fits, abandon_fits, swing_fits, end_fits, next_fits}\n"
text += "\npub fits-each : (ms : ℕ → Marks) → EachStep (Known ms) (EventFits ms)\nfits-each ms = record {\n"
for k in K:
    event = f"(change sh p (st.stands p) {k['sec']} {k['call']} {k['choice']} told (seen {k['op']} st.memory)).event"
    text += f"  {k['name']} = λ sh st p{args(k)} told in_n at_sec at_call{pres(k)} h kn. {FIT.get(k['name'], f'plain_fits sh st ms p {event} (grind (arith, nat_tests))')};\n"
open(os.path.join(FOLDER, "EachFits.antt"), "w").write(text + "}\n")
print("\n".join("pub mod Marks" + g for g in GROUPS) + "\npub mod EachMarks\npub mod EachFits")
