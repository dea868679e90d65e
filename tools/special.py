# What single goals are told beside the default. Read by facts.py.
ENDS = "nothing cancel_ends finish_ends"
GIVES = "cancel_gives finish_gives begin_gives"
CLAIMS = "claim_slot claim_target"
tell("one_slot", CLAIMS, "c_slot i c' s' li", "c_slot j c' s' lj")
tell("one_entry", "claim_entry", "c_entry i c' a' e' li", "c_entry j c' b' e' lj")
tell("c_slot", "drop_slot store_valid store_incoming", "one_slot i p c' s' li in_n")
tell("c_named", "store_back name_target", "one_slot i p c' s' li in_n", "c_slot i c' s' li", "c_lives i c' s' a' e' li", "c_target i c' s' li")
tell("standing", "store_back name_target", "not_claimed sh st h c' a' e' s'")
tell("locked", ENDS, "unpassed p c' (forward_in st.memory c' s') in_n")
tell("frozen", ENDS, "unpassed p c' (forward_in st.memory c' s') in_n")
tell("incoming_round", ENDS, "unpassed p c' s' in_n")
tell("locked", "lock", "frozen c' a' e' s'")
tell("locked", "settle", "locked_owner p c' a' e' s' in_n")
tell("locked", "leave_slot", "standing c a e q")
tell("locked", "lead_source", "locked_owner p c' a' e' s' in_n")
tell("c_entry", "store_live", "one_entry i p c' a' a e' li in_n")
tell("incoming_fwd", "store_live", "incoming_known c' t' a' e'")
tell("incoming_fwd", "l_swing", "incoming_fwd c' t' a e q")
tell("incoming_fwd", "f_swing", "incoming_fwd c' t' a e q")
tell("incoming_fwd", "lead_source", "ahead p c' t' a' e' s' in_n", "locked_owner p c' a' e' s' in_n")
tell("ahead", "store_live", "incoming_known c' t' a' e'")
tell("ahead", "count_dir count_back count_entry", "unpassed p c' t' in_n")
tell("ahead", "f_swing l_swing", f"locked_owner i {'c'}' a e q li", CI)
tell("ahead", "store_incoming", CI, OIP)
tell("standing_in", "starts_begin", "incoming_round c' s'")
tell("standing_in", "l_swing", "locked_owner i c a e q li")
tell("standing_in", "f_swing", "locked_owner i g.coll a e q li")
tell("standing_in", "store_incoming", "not_claimed sh st h c' a' e' s'")
tell("unpassed", "starts_begin", "incoming_round c' s'")
tell("unpassed", "starts_cancel starts_finish finish_dir cancel_dir leave_source " + GIVES, "incoming_in c' s'", "incoming_round c' s'")
tell("unpassed", "store_incoming", OIP)
tell("frozen_held", "starts_begin", "frozen c' a' e' s'")
tell("frozen_held", "lasting", "held i c' a' e' t' li")
tell("frozen_held", "starts_look look_load", "calms sh st h p in_n")
tell("frozen_held", "abandon", "abandon p c a e s' q r' in_n")
tell("frozen_held", "l_swing", "frozen_copy p c a e s' r' in_n")
tell("frozen_held", "freeze", SI, "held i c' a' e' t' li", "owner sh st h p (x + 1) m.coll in_n")
tell("frozen_copy", "starts_begin", "frozen c' a' e' s'")
tell("frozen_copy", "freeze", SI, CI, "owner sh st h p (x + 1) m.coll in_n")
tell("abandon", "starts_begin", "frozen c' a' e' s'")
tell("abandon", "freeze", SI, CI, "owner sh st h p (x + 1) m.coll in_n")
tell("locked_owner", "starts_begin", "locked c' a' e' s'")
tell("locked_owner", "lock", "incoming_fwd g.coll g.slot a e q", "frozen g.coll a e q", OIP, "locked_owner p c' a' e' s' in_n", "standing_in p g.coll a e q in_n")
tell("locked_owner", "lead_source", "locked_owner p c' a' e' s' in_n")
tell("incoming_round", "store_incoming", "owner sh st h p (x + 1) m.coll in_n")
tell("frozen", "settle", "standing c' a' e' s'")
tell("frozen", "leave_slot", "standing c a e q")
tell("frozen", "lead_source", "standing c' a' e' s'")
tell("frozen", "freeze", "owner sh st h p (x + 1) m.coll in_n")
tell("begin_copy", "lock", OIP, CI)
tell("begin_copy", "starts_look abandon look_load", "locked_owner i c' a' e' t' li", CI)
tell("c_loose", "cancel_entry", "unlocked sh st h p c a e")
tell("c_loose", "finish_entry", "unlocked sh st h p g.coll a e")
tell("c_loose", "freeze", OIP, CI)
tell("c_target", GIVES + " settle", OIP, CI)
tell("c_target", "leave_slot", "standing_in i c a e q li", CI)
tell("c_limbos", GIVES, "c_leaving i c' s' a' e' li", "standing_in p c' a' e' s' in_n")
tell("c_limbos", "leave_source", "c_leaving i c' s' a' e' li", "standing c' a' e' s'")
tell("c_limbos", "starts_remove", "placed c a e q")
tell("c_limbos", "leave_slot", "c_leaving i c' s' a' e' li", "standing c' a' e' s'", "standing c a e q", "one_gone i p c' a' a e' li in_n")
tell("placed", GIVES, "standing_in p c' a' e' s' in_n")
tell("placed", "leave_source", "standing c' a' e' s'")
tell("placed", "leave_slot", "standing c' a' e' s'", "standing c a e q")
tell("placed", "l_swing", "locked c a e q", "placed c a e q")
tell("placed", "f_swing", "locked g.coll a e q", "placed g.coll a e q")
tell("c_leads", "lock", "incoming_fwd g.coll g.slot a e q", "frozen g.coll a e q", "standing_in p g.coll a e q in_n")
tell("c_leads", "lead_source", OIP, CI)
tell("c_tries", "lock freeze", OIP, CI)
for f_ in ("c_leaves", "c_apart"):
    tell(f_, "lock", "placed g.coll a e q", "standing g.coll a e q", "standing_in p g.coll a e q in_n", OIP, CI)
    tell(f_, "leave_source", OIP, CI)
    tell(f_, "leave_slot", "standing c a e q")
tell("c_lives", "leave_source leave_slot", "c_named i c' s' a' e' li", "c_entry i c' a' e' li")
tell("c_lives", "leave_slot", "standing c a e q")
tell("one_gone", "starts_remove", "c_removes i c' a' e' li", "c_removes j c' b' e' lj")
tell("c_removes", "free_entry", "one_gone i p c' a' a e' li in_n")
tell("c_passed", "store_incoming", OIP, CI)
tell("c_origin", "freeze", OIP, CI)
tell("c_moved", "claim_entry free_entry", SI, CI)
tell("c_moved", "lock freeze", OIP, CI)
tell("held", "lock", "late_held sh st h p x g.coll a e q i s' in_n li", SI, CI)
tell("held", "starts_look abandon look_load", "hold_free sh st h x c' a' e' s'")
tell("one_held", "starts_look abandon l_swing look_load", "held i c' a' e' s' li", "held j c' a' e' t' lj", "hold_free sh st h x c' a' e' s'")
JI = "i c' a' e' s' n' li"
for f_ in ("j_left", "j_for", "c_resting"):
    tell(f_, CLAIMS + " leave_slot leave_source " + GIVES, SI, CI)
tell("c_ends", CLAIMS + " leave_slot leave_source " + GIVES, SI, CI)
tell("c_frees", CLAIMS, SI, CI)
tell("j_entry", "claim_entry free_entry", SI, CI)
tell("j_locked", GIVES + " leave_source settle", "locked_owner p c' a' e' s' in_n")
tell("j_locked", "leave_slot", "standing c a e q", f"j_named {JI}", f"j_back {JI}")
for k_ in ("starts_look", "abandon", "look_load"):
    for f_ in JS:
        tell(f_, k_, "copy_start sh st h c' a' e' s'")
for f_ in JS:
    tell(f_, "lock", "late_copy sh st h p x g.coll a e q i in_n li", "standing g.coll a e q", "frozen g.coll a e q", "placed g.coll a e q", "standing_in p g.coll a e q in_n", SI, CI)
    tell(f_, "lead_source", f"begin_copy p i m.coll m.source a' e' s' n' in_n li")
for f_ in ("j_named", "j_back"):
    tell(f_, "store_back name_target", *(f"{n} {JI}" for n in ("j_left", "j_for", "j_back") if n != f_))
tell("j_back", "store_incoming store_valid", f"j_for {JI}")
tell("begin_copy", "source_entry", "standing m.coll a e m.source", "j_named j c' a' e' t' n' lj", "j_entry j c' a' e' t' n' lj")
for pref in "lf":
    for stage, next_ in STAGES.items():
        if stage != "swing":
            tell("begin_copy", f"{pref}_{stage}", f"begin_copy i p c' s' a e {'q'} {next_} li in_n")
tell("c_moved", "f_swing", "thawed sh st h p g.coll a e in_n")
for f_ in ("c_source", "c_resting", "c_origin"):
    tell(f_, "source_entry", "standing m.coll a e m.source", "placed m.coll a e m.source", "standing_in p m.coll a e m.source in_n")
tell("c_source", "store_back name_target", "c_resting i c' s' a' e' li")

HI = "homes sh st h i li"
INP = "(subst (InPhase sh (st.stands p).words) at_call ((ranges h).stands p in_n).phase)"


def two(fact_, kinds, mine, theirs, who="i"):
    """the goal by cases: of the stepping pass, and of another one"""
    for k in kinds.split():
        c = BC[fact_]
        g = lambda ts: "grind (arith, nat_tests" + "".join(", " + at(t) for t in ts) + ")"
        base = OWN.get(k, []) + [at(t) for t in NAMED.get(k, [])] + ([BELOW[k]] if k in BELOW else []) + ["calls p in_n", SEC]
        TERM[(k, fact_)] = f"by_eq {who} p (λ y. {g(base + mine)}) (λ n. {g([fact_ + ' ' + c['takes']] + theirs)})"


tell("c_named", "store_back name_target", HI)
tell("c_named", "cancel_back", f"back_home sh st h c t a' e' c' {INP}")
tell("c_named", "finish_back", f"back_home sh st h g.coll g.slot a' e' c' {INP}")
tell("c_frees", "store_live l_swing f_swing", "c_removes i c' a' e' li")
tell("c_leaving", "free_entry", "one_gone i p c' a' a e' li in_n")
tell("c_apart", "store_back name_target", "c_leaves i c' s' li")
tell("c_moved", "store_back name_target", "c_leaves i c' s' li")
tell("c_apart", "l_swing", "c_leaves i c' s' li", "locked c a e q")
tell("c_apart", "f_swing", "c_leaves i c' s' li", "locked g.coll a e q")
tell("c_leaves", "leave_slot", "c_apart i c' s' a e li")
tell("unpassed", "starts_cancel starts_finish", "owner sh st h p b c in_n pre1", OIP)
tell("unpassed", "finish_dir cancel_dir leave_source " + GIVES, "in_round sh st h p c' in_n", OIP)
tell("standing_in", "f_swing", OIP)
tell("standing_in", "l_swing", HI)
tell("frozen", "settle", "c_moved p g.coll q a' e' in_n")
two("c_resting", "claim_target", [], [OIP, CI])
two("c_source", "source_entry", ["standing m.coll a e m.source"], [])
two("c_resting", "source_entry", ["placed m.coll a e m.source", "standing_in p m.coll a e m.source in_n"], [])
two("begin_copy", "look_load", [], [], who="j")
for k_ in ("claim_slot", "claim_entry", "cancel_gives", "finish_gives", "begin_gives", "leave_slot", "leave_source", "free_entry", "claim_target", "freeze", "lock"):
    tell("held", k_, SI)
CLAIMED = "by_true (same_word (st.memory (place.Directory {c} {s})) (word.Directory d) && (s' == {s} && c' == {c})) (λ y. (p, in_n, grind (arith, nat_tests))) (λ n. let z : dir_in st.memory c' s' ≡ dir.Claimed = grind (arith, nat_tests) in let (i, lt, is') = (claims h).claimed c' s' z in (i, lt, grind (arith, nat_tests)))"
TERM[("claim_slot", "claimed")] = CLAIMED.format(c="c", s="s")
TERM[("claim_target", "claimed")] = CLAIMED.format(c="m.coll", s="m.target")
TERM[("claim_entry", "taken")] = "by_true (same_word (st.memory (place.Entry c e)) (word.Entry (state.Free a z)) && (e' == e && c' == c)) (λ y. (p, in_n, grind (arith, nat_tests))) (λ n. let y : state_in st.memory c' e' ≡ state.Claimed a' = grind (arith, nat_tests) in let (i, lt, is') = (claims h).taken c' a' e' y in (i, lt, grind (arith, nat_tests)))"
TERM[("starts_remove", "removed")] = "by_true (not (is_gone (state_in st.memory c e)) && (e' == e && c' == c)) (λ y. (p, in_n, grind (arith, nat_tests, (objects h).held p c a e q in_n pre1))) (λ n. let w : IsRemoved a' (state_in st.memory c' e') = grind (arith, nat_tests, (objects h).held p c a e q in_n pre1) in let (i, lt, is') = (claims h).removed c' a' e' w in (i, lt, grind (arith, nat_tests)))"
two("one_slot", "claim_target", ["c_slot j c' s' lj"], [], who="i")
# a look-up's first load
for k_, who in (("starts_look", "seeker.Caller"), ("look_load", "who")):
    for f_ in JS:
        TERM[(k_, f_)] = (f"by_eq i p (λ y. let z = subst (λ (l : Stand). copying_of l.phase ≡ Some (record {{ number = object a' e' c'; source = s'; next = n' }})) (put_stand-same st.stands p i _ y) is in "
                          f"let (u, v, u2, n, k) = load_copies sh {who} calm a e c (state_in st.memory c e) a' e' c' s' n' z in grind (arith, nat_tests, copy_start sh st h c' a' e' s')) (λ n. grind (arith, nat_tests, {at(f_ + ' ' + BC[f_]['takes'])}))")
HOLD = "hold_free sh st h x c' a' e' s'"
two("held", "starts_look look_load", ["held i c' a' e' s' li", HOLD, "calm_unlocked sh st h p x c' a' e'"], [])
two("held", "abandon", ["held i c' a' e' s' li", HOLD], [])
two("held", "l_swing", ["held i c' a' e' s' li", HOLD, "locked c a e q", "placed c a e q"], ["locked c a e q"])
for k_ in ("starts_look", "look_load", "abandon", "l_swing"):
    g0 = "grind (arith, nat_tests, (objects h).one_held i j c' a' e' s' t' li lj)"
    g1 = f"grind (arith, nat_tests, (objects h).one_held i j c' a' e' s' t' li lj, hold_free sh st h x c' a' e' s', (objects h).held j c' a' e' t' lj)"
    g2 = f"grind (arith, nat_tests, (objects h).one_held i j c' a' e' s' t' li lj, hold_free sh st h x c' a' e' t', (objects h).held i c' a' e' s' li)"
    TERM[(k_, "one_held")] = f"by_eq i p (λ y. by_eq j p (λ z. {g0}) (λ z. {g1})) (λ y. by_eq j p (λ z. {g2}) (λ z. {g0}))"

tell("c_ends", "store_back name_target", "c_leaves i c' s' li")


def terms(*ts):
    return "grind (arith, nat_tests" + "".join(", " + at(t) for t in ts) + ")"


TERM[("claim_target", "c_resting")] = ("by_eq i p (λ y. " + terms("c_resting p m.coll m.source a e in_n", BELOW["claim_target"]) + ") (λ n. " + terms("c_resting i c' s' a' e' li", "calls p in_n", OIP, CI) + ")")
TERM[("claim_target", "one_slot")] = ("by_eq i p (λ y. " + terms("c_slot j c' s' lj", "calls p in_n", SEC) + ") (λ n. " + terms("one_slot i j c' s' li lj", "c_slot i c' s' li", "calls p in_n", SEC) + ")")
COPYING = "(λ (l : Stand). copying_of l.phase ≡ Some (record { number = object a' e' c'; source = s'; next = n' }))"
for k_, found in (("starts_look", "start_copies sh calm a e c (st.memory (place.Entry c e)) a' e' c' s' n' pre1"), ("look_load", "load_copies sh who calm a e c (state_in st.memory c e) a' e' c' s' n'")):
    for f_ in JS:
        TERM[(k_, f_)] = (f"by_eq i p (λ y. let z = subst {COPYING} (put_stand-same st.stands p i _ y) is in "
                          f"let (u, v, u2, n, k) = {found} z in grind (arith, nat_tests, copy_start sh st h c' a' e' s')) (λ n. grind (arith, nat_tests, {at(f_ + ' ' + BC[f_]['takes'])}))")
BCOPY = COPYING.replace("source = s'", "source = t'")
TERM[("look_load", "begin_copy")] = (f"by_eq j p (λ y. let z = subst {BCOPY} (put_stand-same st.stands p j _ y) cp in let (u, v, u2, n, k) = load_copies sh who calm a e c (state_in st.memory c e) a' e' c' t' n' z in "
                                     + terms("locked_owner i c a e t' li", CI) + ") (λ n. " + terms("begin_copy i j c' s' a' e' t' n' li lj") + ")")
def looks(k_, who):
    hold = f"(λ (l : Stand). held_slot l.held (object a' e' c') ≡ Some SLOT)"
    no = "(λ cm s. calm_unlocked sh st h p x c a e s in_n (subst (λ (b : Bool). (st.stands p).section ≡ Inside x b) cm at_sec))"
    if k_ == "starts_look":
        found = f"start_holds sh calm a e c (st.memory (place.Entry c e)) (st.stands p).held a' e' c' SLOT pre1 {no}"
    else:
        found = f"load_holds sh who calm a e c (state_in st.memory c e) (st.stands p).held a' e' c' SLOT {no}"
    def now(i, hyp, slot):
        return f"({found} (subst {hold} (put_stand-same st.stands p {i} _ MINE) {hyp}))".replace("SLOT", slot)
    was = "(objects h).one_held"
    held_i = "(objects h).held i c' a' e' s' li"
    held_j = "(objects h).held j c' a' e' t' lj"
    TERM[(k_, "held")] = (f"by_eq i p (λ y. elim {now('i', 'is', chr(115) + chr(39)).replace('MINE', 'y')} [ inl old ↦ grind (arith, nat_tests, (objects h).held p c' a' e' s' in_n) "
                          f"| inr new ↦ grind (arith, nat_tests, hold_free sh st h x c a e s') ]) (λ n. grind (arith, nat_tests, {held_i}))")
    s1, t1 = "s'", "t'"
    TERM[(k_, "one_held")] = (
        f"by_eq i p (λ y. by_eq j p (λ z. grind (arith, nat_tests)) (λ z. elim {now('i', 'hi', s1).replace('MINE', 'y')} [ inl old ↦ grind (arith, nat_tests, {was} p j c' a' e' s' t' in_n lj) | inr new ↦ grind (arith, nat_tests, {held_j}) ])) "
        f"(λ y. by_eq j p (λ z. elim {now('j', 'hj', t1).replace('MINE', 'z')} [ inl old ↦ grind (arith, nat_tests, {was} i p c' a' e' s' t' li in_n) | inr new ↦ grind (arith, nat_tests, {held_i}) ]) (λ z. grind (arith, nat_tests, {was} i j c' a' e' s' t' li lj)))")
looks("starts_look", "seeker.Caller")
looks("look_load", "who")


ORIGIN = "(λ (l : Stand). origin_of l.phase ≡ Some (s', object a' e' c'))"
TERM[("source_entry", "c_resting")] = (f"by_eq i p (λ y. let seen = source_seen sh x m (object a e m.coll) (state_in st.memory m.coll e) s' (object a' e' c') (subst {ORIGIN} (put_stand-same st.stands p i _ y) is) in "
    "let rest : dir_in st.memory m.coll m.source ≡ dir.Valid = at_rest sh st h p m.coll a e m.source in_n (grind (arith, (calls h).calls p in_n)) (grind (arith, at_call)) (grind (arith, seen.0)) in grind (arith, nat_tests, seen, rest)) (λ n. " + terms("c_resting i c' s' a' e' li") + ")")

HELD_AT = "held_slot {l}.held (object a' e' c') ≡ Some s'"
TERM[("claim_target", "held")] = (
    "let was : " + HELD_AT.format(l="(st.stands i)") + " = by_eq i p (λ y. subst (λ (k : ℕ). " + HELD_AT.format(l="(st.stands k)") + ") (sym y) "
    "(claim_holds x (past_target m) (object a e m.coll) (same_word (st.memory (place.Directory m.coll m.target)) (word.Directory d)) (phase.Begin (next_blank sh m (object a e m.coll) 0)) (st.stands p).held (object a' e' c') s' "
    "(subst (λ (l : Stand). " + HELD_AT.format(l="l") + ") (put_stand-same st.stands p i _ y) is))) (λ n. grind (arith, nat_tests)) in "
    "let holds = (objects h).held i c' a' e' s' li was in "
    "by_true (same_word (st.memory (place.Directory m.coll m.target)) (word.Directory d) && (s' == m.target && c' == m.coll)) "
    "(λ t. absurd (held_unripe sh st h i p x c' a' e' s' calm d li in_n at_sec was (grind (arith, nat_tests)) (ripe_target sh st h p x calm m (object a e m.coll) d in_n at_sec at_call))) "
    "(λ f. by_eq i p (λ y. grind (arith, nat_tests, holds)) (λ n. grind (arith, nat_tests, holds)))")

QUIET = {}
tell("no_others", "store_live", INP + ".1.entry")
TERM[("starts_add", "c_record")] = "grind (arith, nat_tests, r.c_record i c' li)"
TERM[("starts_add", "c_values")] = "grind (arith, nat_tests, r.c_values i c' k' li, no_blank_words ws)"
# a field of a claimed slot is stored
tell("placed_record", "store_field blank_field", "not_claimed sh st h c' a' e' s'", "placed c' a' e' s'")
tell("held_record", "store_field blank_field", "held i c' a' e' s' li")
tell("frozen_blank", "store_field blank_field", "frozen c' a' e' s'")
tell("locked_fields", "store_field blank_field", "locked c' a' e' s'", "placed c' a' e' s'")
tell("j_passed", "store_field blank_field", "j_for i c' a' e' s' n' li")
tell("j_fields", "store_field blank_field", "j_for i c' a' e' s' n' li")
tell("j_word", "store_field blank_field", "j_left i c' a' e' s' n' li")
tell("c_stored", "store_field blank_field", "one_slot i p c' s' li in_n", "c_slot i c' s' li", "c_lives i c' s' a' e' li")
tell("c_blanks", "store_field blank_field", "one_slot i p c' s' li in_n", "c_slot i c' s' li", "c_target i c' s' li")
# a field of a target is put
for pref, c in (("l", "c"), ("f", "g.coll")):
    k_ = pref + "_put"
    tell("placed_record", k_, "values c' a' e' k' (field_in st.memory c' s' k')")
    tell("held_record", k_, "values c' a' e' k' (field_in st.memory c' s' k')")
    tell("c_stored", k_, "c_values i c' k' li", "c_slot i c' s' li")
    tell("c_blanks", k_, f"locked_owner i {c} a e q li", CI, f"j_fields p {c} a e q f (copy.Put t f w) in_n", "c_slot i c' s' li")
    tell("frozen_blank", k_, "frozen c' a' e' s'", f"j_fields p {c} a e q f (copy.Put t f w) in_n")
    tell("locked_fields", k_, "locked c' a' e' s'", "placed_record c' a' e' s' k'", "values c' a' e' k' (field_in st.memory c' s' k')")
    tell("j_word", k_, "placed_record c' a' e' s' f'", "values c' a' e' f' (field_in st.memory c' s' f')")
    PUT = f"put_word sh st h opened r p {c} a e q t f w in_n"
    tell("j_passed", k_, PUT)
    tell("j_fields", k_, PUT)
    k_ = pref + "_swing"
    tell("placed_record", k_, f"locked_fields {c} a e q k'", f"placed_record {c} a e q k'")
    tell("j_fields", k_, "j_entry i c' a' e' s' n' li")
tell("held_record", "l_swing", "locked_fields c a e q k'", "placed_record c a e q k'", "placed_record c' a' e' s' k'")
tell("held_record", "starts_look look_load abandon", "placed_record c' a' e' s' k'")
tell("frozen_blank", "lead_source", "standing c' a' e' s'")
tell("locked_fields", "lead_source", "standing c' a' e' s'")
for f_ in ("j_passed", "j_fields"):
    tell(f_, "lead_source", "begin_copy p i m.coll m.source a' e' s' n' in_n li")
tell("locked_fields", "lock", "frozen_blank g.coll a e q k'")
for f_ in ("j_passed", "j_word", "j_fields"):
    tell(f_, "lock", "late_copy sh st h p x g.coll a e q i in_n li", SI, CI)
tell("c_stored", "write", "c_slot i c' s' li", "c_lives i c' s' a' e' li", "c_named i c' s' a' e' li", "c_entry i c' a' e' li")
tell("c_blanks", "write", "c_slot i c' s' li", "c_target i c' s' li", "standing_in i c a e q li", CI)
tell("placed_record", "write", "standing c' a' e' s'")
tell("held_record", "write", "one_held i p c a e s' q li in_n", "held i c' a' e' s' li")
tell("frozen_blank", "write", "frozen c' a' e' s'")
tell("locked_fields", "write", "locked c' a' e' s'", "standing c' a' e' s'")
tell("j_word", "write", "j_named i c' a' e' s' n' li")

for c_, ks in (("c", "claim_entry store_live abandon l_swing starts_remove free_entry unfreeze"), ("m.coll", "freeze"), ("g.coll", "lock f_swing")):
    tell("since", ks, f"since {c_} e")
ADDED = "added-view st.world a e c a' e' c' c (st.stands p).words"
for f_ in ("given_in", "given_of", "no_others", "is_here", "values", "placed_record", "held_record"):
    tell(f_, "store_live", ADDED)
tell("given_in", "store_live", "since c e")
tell("given_of", "store_live", "since c e")
tell("values", "store_live", "get_value (st.stands p).words k' v'")
tell("placed_record", "store_live", "get_index (st.stands p).words k'")
tell("held_record", "store_live", "held i c' a' e' s' li")
for pref, c in (("l", "c"), ("f", "g.coll")):
    k_ = pref + "_put"
    own_ = [f"j_fields p {c} a e q k' (copy.Put t f w) in_n", f"j_led p {c} a e q (copy.Put t f w) in_n"]
    put_ = f"put_word sh st h opened r p {c} a e q t f w in_n (grind (arith, at_call))"
    TERM[(k_, "j_fields")] = "by_eq i p (λ y. " + terms(put_, *own_) + ") (λ n. " + terms(put_, "j_fields i c' a' e' s' k' n' li") + ")"
    tell("j_word", k_, "j_locked i c' a' e' s' n' li", f"j_fields p {c} a e q f (copy.Put t f w) in_n", INP + ".3.1", f"locked {c} a e q")
    TERM[(pref + "_swing", "j_fields")] = terms("j_fields i c' a' e' s' k' n' li", "j_entry i c' a' e' s' n' li", f"j_passed p {c} a e q k' (copy.Swing t) in_n", f"j_led p {c} a e q (copy.Swing t) in_n", f"j_led i c' a' e' s' n' li")
TERM[("freeze", "j_fields")] = terms("j_fields i c' a' e' s' k' n' li")
# the world after a write and after a first remove
WRITTEN = "changed-view st.world a e c a' e' c' (λ (o : Object). with_word o f w)"
REMOVED = "changed-view st.world a e c a' e' c' removed"
OBJ = "(object_of st.world (object a e c))"
for f_ in ("given_in", "given_of", "no_others", "is_here", "values", "placed_record", "held_record"):
    tell(f_, "write", WRITTEN)
    tell(f_, "starts_remove", REMOVED)
for f_ in ("given_in", "given_of", "no_others"):
    tell(f_, "write", f"written-given {OBJ} f w")
    tell(f_, "starts_remove", f"removed-given {OBJ}")
tell("is_here", "write", f"written-present {OBJ} f w")
tell("is_here", "starts_remove", f"removed-present {OBJ}")
for f_ in ("values", "placed_record", "held_record"):
    tell(f_, "write", f"written-there {OBJ} f w", f"written-elsewhere {OBJ} f w k'", "held_record p c a e q f in_n pre1")
    tell(f_, "starts_remove", f"removed-word {OBJ} k'")
