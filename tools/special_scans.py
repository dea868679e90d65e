# What single goals of the part "scans" are told beside the default, or their whole term. Read by facts_scans.py.
for k_ in [k["name"] for k in K if k["group"] == "Sections"]:
    tell("s_frozen", k_, "s_within i k' b' li")
tell("s_dir", CLAIMS + " leave_slot leave_source " + GIVES, SI, CI)
tell("s_back", "store_back name_target", "s_dir i c' s' li", "sought-slot (st.stands i).phase (c', s') (object a' e' d')")
tell("s_frozen", "starts_begin", "frozen c' a' e' s'")
tell("s_frozen", "lead_source", "standing c' a' e' s'")
tell("s_frozen", "freeze", SI, "owner sh st h p (x + 1) m.coll in_n", "s_within i k' b' li")
tell("s_locked", "lead_source", "locked_owner p c' a' e' s' in_n")
tell("s_locked", "lock", "late_scan sh st h r p x g.coll a e q i k' b' in_n li", SI, "s_within i k' b' li")

# ---- steps that change scans: the goal of the stepping pass by what it was before, that of another one by the same fact
MINE = "(put_stand-same st.stands p i _ eq)"


def by_pass(fact_, mine):
    """the goal by cases: of the stepping pass, and of another one"""
    return f"by_eq i p (λ eq. {mine}) (λ ne. {terms(fact_ + ' ' + BC[fact_]['takes'])})"


def was_so(shape_, body):
    return f"let now = subst (λ (l : Stand). {shape_}) {MINE} is in {body}"


IN_SCANS = "scan_of l.scans k' ≡ Some b'"
AT = "scan_at {l} ≡ Some (k', (c', s'))"
SLOT = "scanned_slot {l} ≡ Some (c', s')"
OWNER = "sought_at {l} ≡ Some ((c', s'), object a' e' d')"
SCANS = "(st.stands p).scans"


def of_call(shape_, proof):
    """a fact of the call in progress, by its phase"""
    return f"(subst (λ (next : Phase). {shape_.format(l='next')}) (sym at_call) {proof})"


def dirs_at(c, t): return f"(st.memory (place.Directory {c} {t}))"


WAS = {}       # of each step that changes scans: the scan before it


def frozen(kind_, was, mine, before="fz"):
    """was: the scan before the step, from now; mine: why a frozen object whose target is the slot passed is none, or in time"""
    WAS[kind_] = was
    TERM[(kind_, "s_frozen")] = by_pass("s_frozen", was_so(IN_SCANS,
        f"let fz0 : state_in st.memory c' e' ≡ state.Frozen a' s' = {before} in let (old, was, same, at) = {was} in let bound : epoch_of (st.stands p).section ≤ r'.bound = elim at ["
        f" inl kept ↦ r.s_frozen p k' c' a' e' s' old r' in_n fz0 rd was (sym same ∙ of) (subst (λ (z : ℕ). forward_in st.memory c' s' < z) kept lt)"
        f" | inr left ↦ {mine} ] in grind (arith, nat_tests, bound)"))


def locked(kind_, was, mine, before="lk"):
    TERM[(kind_, "s_locked")] = by_pass("s_locked", was_so(IN_SCANS,
        f"let lk0 : state_in st.memory c' e' ≡ state.Locked a' s' = {before} in let (old, was, same, at) = {was} in let bound : b'.place ≤ forward_in st.memory c' s' = elim at ["
        f" inl kept ↦ subst (λ (z : ℕ). z ≤ forward_in st.memory c' s') (sym kept) (r.s_locked p k' c' a' e' s' old in_n lk0 was (sym same ∙ of))"
        f" | inr left ↦ {mine} ] in grind (arith, nat_tests, bound)"))


def fresh(kind_, was):
    TERM[(kind_, "s_fresh")] = by_pass("s_fresh", was_so(IN_SCANS, f"let (old, was, same, at) = {was} in let below' = r.s_fresh p k' old in_n was in grind (arith, nat_tests, below')"))


def apart(kind_, law):
    TERM[(kind_, "s_apart")] = f"by_eq i p (λ eq. subst (λ (l : Stand). AreApart l.scans) (sym {MINE}) ({law})) (λ ne. {terms('s_apart i li')})"


def place_of(kind_, law):
    TERM[(kind_, "s_place")] = by_pass("s_place", was_so(AT.format(l="l.phase"), f"subst (λ (l : Stand). IsAt c' s' (scan_of l.scans k')) (sym {MINE}) ({law})"))


OVER_AT = "ends_of {l} ≡ Some k'"


def over_of(kind_, law):
    TERM[(kind_, "s_over")] = by_pass("s_over", was_so(OVER_AT.format(l="l.phase"), f"subst (λ (l : Stand). IsPassed sh (scan_of l.scans k')) (sym {MINE}) ({law})"))


APART = "(r.s_apart p in_n)"
# look-ups
STEPS = {
    "look_load": ("(look.Load who (object a e c))", "(st.memory (place.Entry c e))"),
    "abandon": ("(look.Abandon who (object a e c) q)", "(st.memory (place.Entry c e))"),
    "l_fwd": ("(look.Help who (object a e c) q copy.Target)", "(st.memory (place.Forward c q))"),
    "l_read": ("(look.Help who (object a e c) q (copy.Load t f))", "(st.memory (place.Field c q f))"),
    "l_put": ("(look.Help who (object a e c) q (copy.Put t f w))", "(st.memory (place.Field c t f))"),
    "l_swing": ("(look.Help who (object a e c) q (copy.Swing t))", "(st.memory (place.Entry c e))"),
}
FZ0 = "grind (arith, nat_tests, fz)"
LK0 = "grind (arith, nat_tests, lk)"
for k_, (next_, word_) in STEPS.items():
    finding = f"(look_finding sh calm {next_} {word_})"
    was_ = f"looked-was who {finding} {SCANS} k' b' now"
    fresh(k_, was_)
    apart(k_, f"looked-apart who {finding} {SCANS} {APART}")
    place_of(k_, f"looked-at sh who (object a e c) {finding} {SCANS} k' c' s' (λ k1 c1 t1 is1. r.s_place p k1 c1 t1 in_n (subst (λ (next : Phase). scan_at next ≡ Some (k1, (c1, t1))) (sym at_call) is1)) now")
    over_of(k_, f"looked-over sh who (object a e c) {finding} {SCANS} k' (λ k1 c1 t1 is1. r.s_place p k1 c1 t1 in_n (subst (λ (next : Phase). scan_at next ≡ Some (k1, (c1, t1))) (sym at_call) is1)) now")
    TERM[(k_, "s_dir")] = by_pass("s_dir", was_so(SLOT.format(l="l.phase"), f"let seen_so = r.s_dir p c' s' in_n {of_call(SLOT, f'(looked-slot sh who (object a e c) {finding} (c{chr(39)}, s{chr(39)}) now)')} in grind (arith, nat_tests, seen_so)"))
    for f_ in ("s_back", "s_home"):
        TERM[(k_, f_)] = by_pass(f_, was_so(OWNER.format(l="l.phase"), f"let named = r.{f_} p c' s' a' e' d' in_n {of_call(OWNER, f'(looked-owner sh who (object a e c) {finding} (c{chr(39)}, s{chr(39)}) (object a{chr(39)} e{chr(39)} d{chr(39)}) now)')} in grind (arith, nat_tests, named)"))
    place_ = f"(look_place sh st h r p k' c0 t0 old {next_} in_n at_call who0 was)"
    back_ = f"(look_back sh st h r p k' c0 t0 a e c {next_} in_n at_call who0 refl)"
    open_ = "let (c0, t0, who0, step0, decided) = left in "
    mine_ = {
        "look_load": "load_frozen sh st h r p x c a e s' calm r' in_n at_sec rd (grind (arith, own_back, nm, fz0)) decided",
        "abandon": "grind (arith, nat_tests, own_back, nm, fz, fz0, at_sec, (moves h).abandon p c a e s' q r' in_n)",
        "l_swing": "(moves h).frozen_copy p c a e s' r' in_n (grind (arith, own_back, nm, fz0)) rd (subst (λ (next : Phase). copied_by next ≡ Some (object a e c)) (sym at_call) refl)",
    }.get(k_, "absurd (cc)")
    frozen(k_, was_, open_ + f"let own_back = {back_} in passed_frozen sh st h r p k' c0 t0 c' a' e' s' b'.place old r' in_n fz0 rd was (sym same ∙ of) {place_} step0 lt (λ nm inc hm. {mine_})", FZ0 if k_ in ("abandon", "l_swing", "l_put") else "fz")
    mine_ = {
        "look_load": "load_locked sh st h r p x c a e s' calm in_n at_sec (grind (arith, own_back, nm, lk0)) decided",
        "abandon": "grind (arith, nat_tests, own_back, nm, lk, lk0, decided)",
        "l_swing": "grind (arith, nat_tests, own_back, nm, lk, lk0, (copies h).j_entry p c a e q (copy.Swing t) in_n)",
    }.get(k_, "absurd (cc)")
    locked(k_, was_, open_ + f"let own_back = {back_} in passed_locked sh st h r p k' c0 t0 c' a' e' s' b'.place old in_n lk0 was (sym same ∙ of) {place_} step0 (λ nm inc hm. {mine_})", LK0 if k_ in ("abandon", "l_swing", "l_put") else "lk")

# scans on their way
WAY = {"scan_dir": ("(scan.Directory k c t)", dirs_at("c", "t"), "seen_dir"), "scan_back": ("(scan.Back k c t)", "(st.memory (place.Back c t))", "seen_back")}
HERE = "(c0', s0')"
for k_, (next_, word_, law) in WAY.items():
    was_ = f"{law}-was {SCANS} k c t {word_} k' b' now"
    fresh(k_, was_)
    apart(k_, f"{law}-apart {SCANS} k c t {word_} {APART}")
    own_at = "(r.s_place p k c t in_n (subst (λ (next : Phase). scan_at next ≡ Some (k, (c, t))) (sym at_call) refl))"
    place_of(k_, f"{law}-at sh {SCANS} k c t {word_} k' c' s' {own_at} now")
    over_of(k_, f"{law}-over sh {SCANS} k c t {word_} k' {own_at} now")
    place_ = f"(call_place sh st h r p k c t old (phase.Scan {next_}) in_n at_call refl (subst (λ (z : ℕ). scan_of {SCANS} z ≡ Some old) left.0 was))"
    never = "absurd (grind (arith, nat_tests, nm, inc, left.2))"
    frozen(k_, was_, f"passed_frozen sh st h r p k' c t c' a' e' s' b'.place old r' in_n fz0 rd was (sym same ∙ of) {place_} left.1 lt (λ nm inc hm. {never})")
    locked(k_, was_, f"passed_locked sh st h r p k' c t c' a' e' s' b'.place old in_n lk0 was (sym same ∙ of) {place_} left.1 (λ nm inc hm. {never})")
TERM[("scan_dir", "s_dir")] = by_pass("s_dir", was_so(SLOT.format(l="l.phase"), f"let (ec, et, in_use) = seen_dir-slot sh k c t {dirs_at('c', 't')} c' s' now in grind (arith, nat_tests, ec, et, in_use)"))
TERM[("scan_back", "s_dir")] = by_pass("s_dir", was_so(SLOT.format(l="l.phase"), f"let seen_so = r.s_dir p c' s' in_n {of_call(SLOT, '(seen_back-slot sh k c t (st.memory (place.Back c t)) (c' + chr(39) + ', s' + chr(39) + ') now)')} in grind (arith, nat_tests, seen_so)"))
for f_ in ("s_back", "s_home"):
    TERM[("scan_dir", f_)] = by_pass(f_, was_so(OWNER.format(l="l.phase"), f"let none_so = seen_dir-owner sh k c t {dirs_at('c', 't')} in absurd (cc)"))
NAMES = "let (ec, et, named) = seen_back-owner sh k c t (st.memory (place.Back c t)) c' s' (object a' e' d') now in "
TERM[("scan_back", "s_back")] = by_pass("s_back", was_so(OWNER.format(l="l.phase"), NAMES + "grind (arith, nat_tests, ec, et, named)"))
TERM[("scan_back", "s_home")] = by_pass("s_home", was_so(OWNER.format(l="l.phase"), NAMES + f"let hm = back_home sh st h c t a' e' d' {INP} named in grind (arith, hm, ec)"))

# going on with a scan
W_ = dirs_at("b1.coll", "b1.place")
NEXT_SCANS = f"(next_slot-scans sh {SCANS} k b1 {W_} pre1 pre2)"
NEXT_CHANGE = f"(next_slot-change sh {SCANS} k b1 {W_} pre1 pre2)"


def next_now(shape_):
    return f"(subst (λ (y : Change). {shape_.format(l='y.phase')}) {NEXT_CHANGE} now)"


was_ = f"seen_dir-was {SCANS} k b1.coll b1.place {W_} k' b' (subst (λ (y : List Scan). scan_of y k' ≡ Some b') {NEXT_SCANS} now)"
fresh("next_slot", was_)
apart("next_slot", f"subst AreApart (sym {NEXT_SCANS}) (seen_dir-apart {SCANS} k b1.coll b1.place {W_} {APART})")
place_of("next_slot", f"subst (λ (y : List Scan). IsAt c' s' (scan_of y k')) (sym {NEXT_SCANS}) (seen_dir-at sh {SCANS} k b1.coll b1.place {W_} k' c' s' (subst (IsAt b1.coll b1.place) (sym pre1) (refl, refl)) {next_now(AT)})")
over_of("next_slot", f"subst (λ (y : List Scan). IsPassed sh (scan_of y k')) (sym {NEXT_SCANS}) (seen_dir-over sh {SCANS} k b1.coll b1.place {W_} k' (subst (IsAt b1.coll b1.place) (sym pre1) (refl, refl)) {next_now(OVER_AT)})")
place_ = f"(subst (IsAt b1.coll b1.place) (sym pre1 ∙ subst (λ (z : ℕ). scan_of {SCANS} z ≡ Some old) left.0 was) (refl, refl))"
never = "absurd (grind (arith, nat_tests, nm, inc, left.2))"
frozen("next_slot", was_, f"passed_frozen sh st h r p k' b1.coll b1.place c' a' e' s' b'.place old r' in_n fz0 rd was (sym same ∙ of) {place_} left.1 lt (λ nm inc hm. {never})")
locked("next_slot", was_, f"passed_locked sh st h r p k' b1.coll b1.place c' a' e' s' b'.place old in_n lk0 was (sym same ∙ of) {place_} left.1 (λ nm inc hm. {never})")
TERM[("next_slot", "s_dir")] = by_pass("s_dir", was_so(SLOT.format(l="l.phase"), f"let (ec, et, in_use) = seen_dir-slot sh k b1.coll b1.place {W_} c' s' {next_now(SLOT)} in grind (arith, nat_tests, ec, et, in_use)"))
for f_ in ("s_back", "s_home"):
    TERM[("next_slot", f_)] = by_pass(f_, was_so(OWNER.format(l="l.phase"), f"let none_so = seen_dir-owner sh k b1.coll b1.place {W_} in let there = {next_now(OWNER)} in absurd (cc)"))


# scans that end, and one that begins
def ends_by(kind_, was):
    WAS[kind_] = was
    fresh(kind_, was.replace("WAS", "now"))
    TERM[(kind_, "s_frozen")] = by_pass("s_frozen", was_so(IN_SCANS,
        f"let (old, was, same, kept) = {was} in let bound = r.s_frozen p k' c' a' e' s' old r' in_n fz rd was (sym same ∙ of) (subst (λ (z : ℕ). forward_in st.memory c' s' < z) kept lt) in grind (arith, nat_tests, bound)"))
    TERM[(kind_, "s_locked")] = by_pass("s_locked", was_so(IN_SCANS,
        f"let (old, was, same, kept) = {was} in subst (λ (z : ℕ). z ≤ forward_in st.memory c' s') (sym kept) (r.s_locked p k' c' a' e' s' old in_n lk was (sym same ∙ of))"))


ends_by("scan_end", f"ended-was {SCANS} k k' b' now")
apart("scan_end", f"ended-apart {SCANS} k {APART}")
OVER = f"sh {SCANS} k b1 (st.memory (place.Section p))"
ends_by("next_over", f"next_over-was {OVER} k' b' pre1 pre2 now")
apart("next_over", f"next_over-apart {OVER} pre1 pre2 {APART}")
for f_ in ("s_place", "s_over", "s_dir", "s_back", "s_home"):
    tell(f_, "next_over", f"next_over-phase {OVER} pre1 pre2")
NEW = "(new_scan (scan_number p (st.stands p).begun) c)"
BEGAN = f"begun-was {SCANS} {NEW} k' b' now"
TERM[("starts_scan", "s_fresh")] = by_pass("s_fresh", was_so(IN_SCANS,
    f"elim ({BEGAN}) [ inl was ↦ (let below' = r.s_fresh p k' b' in_n was in grind (arith, nat_tests, below')) | inr new ↦ (let named = scan_of-number ({SCANS} ++ {NEW} ∷ []) k' b' now in grind (arith, nat_tests, named, new)) ]"))
apart("starts_scan", f"begun-apart {SCANS} {NEW} {APART} (no_scan {SCANS} (scan_number p (st.stands p).begun) (λ b0 is0. r.s_fresh p (scan_number p (st.stands p).begun) b0 in_n is0))")
TERM[("starts_scan", "s_frozen")] = by_pass("s_frozen", was_so(IN_SCANS,
    f"elim ({BEGAN}) [ inl was ↦ (let bound = r.s_frozen p k' c' a' e' s' b' r' in_n fz rd was of lt in grind (arith, nat_tests, bound)) | inr new ↦ absurd (grind (arith, new, lt)) ]"))
TERM[("starts_scan", "s_locked")] = by_pass("s_locked", was_so(IN_SCANS,
    f"elim ({BEGAN}) [ inl was ↦ r.s_locked p k' c' a' e' s' b' in_n lk was of | inr new ↦ grind (arith, new) ]"))
