#!/usr/bin/env python3
"""Writes crates/smc_agreement/proofs/EachKind.antt: what it is that a law is kept by each kind of step, and that then each
step that a pass offers keeps it. The table of the kinds is kinds.py."""
import os
import re
import sys

sys.path.insert(0, os.path.dirname(os.path.abspath(__file__)))
from kinds import K, BY, IN

TOP = os.path.dirname(os.path.dirname(os.path.abspath(__file__)))


def strip(t):
    return t[1:-1] if t.startswith("(") else t


def binders(k):
    return "".join(f" ({n} : {t})" for n, t in k["vars"])


def field(k):
    pre = "".join(q + " → " for q in k["pre"])
    return (f"  -- kind {k['step']}\n  pub {k['name']} : (sh : Layout) (st : S.State) (p : ℕ){binders(k)} (told : ℕ) → p < sh.passes → (st.stands p).section ≡ {strip(k['sec'])} → (st.stands p).phase ≡ {strip(k['call'])}"
            f" → {pre}Shut sh st → H sh st\n      → P sh (did sh st p {k['choice']} {k['sec']} {k['call']} told {k['op']})\n")


NUMBER = r"\(object a e (\S+?)\)"


def pattern(call):
    return re.sub(NUMBER, "number", call)


def arguments(k):
    """the arguments of a kind's law where its phase has a number"""
    m = re.search(NUMBER, k["call"])
    out = []
    for n, _ in k["vars"]:
        if m and n == "a":
            out.append("number.incarnation")
        elif m and n == "e":
            out.append("number.entry")
        elif m and n == m.group(1) and not k["home"]:
            out.append("number.coll")
        else:
            out.append(n)
    return " ".join(out)


def goes(k):
    head = f"  go_inside x calm {pattern(k['call'])} at_sec at_call = "
    if not k["home"]:
        return head + f"λ told. each.{k['name']} sh st p {arguments(k)} told in_n at_sec at_call h more\n"
    call, op = (re.sub(r"\ba e k\b", "number.incarnation number.entry k", t) for t in k["at"])
    op = op.replace("(place.Entry k e)", "(place.Entry k number.entry)")
    op = re.sub(r"state\.(\w+) a ", r"state.\1 number.incarnation ", op)
    return head + (f"λ told.\n      subst (λ (k : ℕ). (st.stands p).phase ≡ {strip(call)} → P sh (did sh st p Go (Inside x calm) {call} told {op})) (sym (subst IsHomed at_call (homes sh st h p in_n)))\n"
                   f"      (λ at. each.{k['name']} sh st p {arguments(k)} told in_n at_sec at h more) at_call\n")


CALLS = ["call.Enter", "call.Leave", "call.Advance", "(call.Add c k ws)", "(call.Look number)", "(call.Read number f)", "(call.Write number f w)", "(call.Remove number)", "(call.Scan c)", "(call.Next k)",
         "(call.Begin c)", "call.Finish", "call.Cancel", "(call.Survey c)", "call.Note", "(call.Learn k y)"]
SECTIONS = ["Outside", "(Loaded v)", "(Announced v)", "(Again v z)", "(Lasting z)"]
HEAD = open(os.path.join(TOP, "tools", "dispatch_head.txt")).read()
STARTS = open(os.path.join(TOP, "tools", "dispatch_starts.txt")).read()


def main():
    out = "-- A law that each kind of step keeps is kept by each step that a pass offers. Written by tools/dispatch.py.\n" + HEAD
    out += "-- each kind of step keeps the law, where this is known beside what is shut\npub record EachKind (H P : Layout → S.State → Type 0) : Type 0 where\n"
    out += "".join(field(k) for k in K)
    out += """
module _ (H P : Layout → S.State → Type 0) (each : EachKind H P) (sh : Layout) (st : S.State) (h : Shut sh st) (more : H sh st) (p : ℕ) (in_n : p < sh.passes) where
  -- the law holds after the offered step
  abbrev Kept : Section → Phase → Choice → Offer → Type 0
  Kept section next choice o = (told : ℕ) → P sh (did sh st p choice section next told o.op)

  -- a step that goes on with a call
  go_inside : (x : ℕ) (calm : Bool) (next : Phase) → (st.stands p).section ≡ Inside x calm → (st.stands p).phase ≡ next
      → IfSome (go_offer p (st.stands p) (Inside x calm) next) (Kept (Inside x calm) next Go)
  go_inside x calm phase.Idle at_sec at_call = tt
  go_inside x calm phase.Entering at_sec at_call = tt
  go_inside x calm (phase.Advancing z k) at_sec at_call = λ told. each.advancing sh st p (Inside x calm) z k told in_n at_sec at_call h more
  go_inside x calm (phase.Ready z) at_sec at_call = λ told. each.ready sh st p (Inside x calm) z told in_n at_sec at_call h more
"""
    out += "".join(goes(k) for k in K if k["choice"] == "Go" and k["sec"] == IN)
    out += """
  -- no call is made but in a section
  knows : (section : Section) (next : Phase) → (st.stands p).section ≡ section → (st.stands p).phase ≡ next → CallKnows section (st.stands p).round next
  knows section next at_sec at_call = subst (λ (k : Phase). CallKnows section (st.stands p).round k) at_call
      (subst (λ (k : Section). CallKnows k (st.stands p).round (st.stands p).phase) at_sec ((calls h).calls p in_n))

  going : (section : Section) (next : Phase) → (st.stands p).section ≡ section → (st.stands p).phase ≡ next
      → IfSome (go_offer p (st.stands p) section next) (Kept section next Go)
  going (Inside x calm) next at_sec at_call = go_inside x calm next at_sec at_call
"""
    entering = {"Outside": "tt", "(Loaded v)": "λ told. each.announce sh st p v told in_n at_sec at_call h more", "(Announced v)": "λ told. each.again sh st p v told in_n at_sec at_call h more",
                "(Again v z)": "λ told. each.lasting sh st p v z told in_n at_sec at_call h more", "(Lasting z)": "λ told. each.entered sh st p z told in_n at_sec at_call h more"}
    for s in SECTIONS:
        out += f"  going {s} phase.Idle at_sec at_call = tt\n  going {s} phase.Entering at_sec at_call = {entering[s]}\n"
        out += f"  going {s} (phase.Advancing y k) at_sec at_call = λ told. each.advancing sh st p {s} y k told in_n at_sec at_call h more\n"
        out += f"  going {s} (phase.Ready y) at_sec at_call = λ told. each.ready sh st p {s} y told in_n at_sec at_call h more\n"
        for c in ("Look", "Add", "Remove", "Scan", "Begin", "Finish", "Cancel", "Survey"):
            first = "" if c in ("Look", "Remove", "Scan", "Survey") else ".0"
            out += f"  going {s} (phase.{c} next) at_sec at_call = absurd ((knows {s} (phase.{c} next) at_sec at_call){first})\n"
    out += STARTS
    out += "\n  -- the first step of a call\n  starts : (section : Section) (next : Call) → (st.stands p).section ≡ section → (st.stands p).phase ≡ phase.Idle\n      → IfSome (start_offer sh p (st.stands p) section next) (Kept section phase.Idle (Start next))\n"
    out += "  starts (Inside x calm) next at_sec at_call = starts_inside x calm next at_sec at_call\n"
    outside = {"call.Enter": "λ told. each.enter sh st p told in_n at_sec at_call h more", "call.Advance": "λ told. each.advance sh st p told in_n at_sec at_call h more",
               "call.Note": "λ told. each.note sh st p told in_n at_sec at_call h more", "(call.Learn k y)": "λ told. each.learn sh st p k y told in_n at_sec at_call h more"}
    for s in SECTIONS:
        for c in CALLS:
            out += f"  starts {s} {c} at_sec at_call = {outside.get(c, 'tt') if s == 'Outside' else 'tt'}\n"
    out += """
  -- each step that is offered
  offered : (choice : Choice) (section : Section) (next : Phase) → (st.stands p).section ≡ section → (st.stands p).phase ≡ next
      → IfSome (offer sh p (st.stands p) section next choice) (Kept section next choice)
  offered Go section next at_sec at_call = going section next at_sec at_call
  offered (Start next) section phase.Idle at_sec at_call = starts section next at_sec at_call
"""
    for c in ("phase.Entering", "(phase.Advancing z k)", "(phase.Ready z)", "(phase.Look y)", "(phase.Add y)", "(phase.Remove y)", "(phase.Scan y)", "(phase.Begin y)", "(phase.Finish y)", "(phase.Cancel y)", "(phase.Survey y)"):
        out += f"  offered (Start next) section {c} at_sec at_call = tt\n"
    out += """
  -- a law that each kind of step keeps is kept by each step that a pass offers
  pub each_step : (choice : Choice) (o : Offer) (told : ℕ) → stand_offer sh p (st.stands p) choice ≡ Some o
      → P sh (state_after sh st p choice told o.op (seen o.op st.memory))
  each_step choice o told offers = subst (λ (k : Option Offer). IfSome k (Kept (st.stands p).section (st.stands p).phase choice)) offers (offered choice (st.stands p).section (st.stands p).phase refl refl) told
"""
    out += """
-- a part that each kind of step keeps is kept
pub is_kept : (H P : Layout → S.State → Type 0) → EachKind H P → IsKept H P
is_kept H P each sh st p choice o told in_n agrees more offers = each_step H P each sh st (shut agrees) more p in_n choice o told offers
"""
    open(os.path.join(TOP, "crates", "smc_agreement", "proofs", "EachKind.antt"), "w").write(out)


main()
