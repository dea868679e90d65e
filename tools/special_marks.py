# The goals of the steps that change marks: look-ups that are decided, and a scan that begins. Read by marks.py.
PARTS = {
    "look_load": dict(before="pr", cond=None, found="found_at calm a T (state_in st.memory c e) PR decided", form="state_in st.memory c e"),
    "abandon": dict(before=grind(["pr"]), cond=None, found="abandoned_at (same_word (st.memory (place.Entry c e)) (word.Entry (state.Frozen a q))) a q T (state_in st.memory c e) PR decided",
                    form="if same_word (st.memory (place.Entry c e)) (word.Entry (state.Frozen a q)) then state.Present a q else state_in st.memory c e"),
    "l_swing": dict(before=grind(["pr", "ns"]), cond="same_word (st.memory (place.Entry c e)) (word.Entry (state.Locked a q)) && (e' == e && c' == c)",
                    found="swung_at (same_word (st.memory (place.Entry c e)) (word.Entry (state.Locked a q))) a t T (state_in st.memory c e) PR decided",
                    form="if same_word (st.memory (place.Entry c e)) (word.Entry (state.Locked a q)) then state.Present a t else state_in st.memory c e"),
}
BACK = "subst (λ (x : Marks). x.visited k' (object a' e' c') ≡ true) (sym (put-mine ms p i NEW eq)) "
for k_, part in PARTS.items():
    next_, word_ = T.STEPS[k_]
    n_ = "(object a e c)"
    others = swings("c") if part["cond"] else {}
    finding = f"(look_finding sh calm {next_} {word_})"
    new = f"(marks_told st.world (ms p) (look_change sh who {n_} {finding}).event)"
    was_old = f"let (old, was, same, at) = {T.WAS[k_]} in "
    bg0 = f"let bg0 : (ms p).began k' {N} ≡ true = subst (λ (y : ℕ → Number → Bool). y k' {N} ≡ true) (looked-began sh who {n_} {finding} st.world (ms p)) (subst (λ (x : Marks). x.began k' {N} ≡ true) (put-mine ms p i {new} eq) bg) in "
    vs0 = f"let vs0 = looked-visited sh who {n_} {finding} st.world (ms p) k' {N} (subst (λ (x : Marks). x.visited k' {N} ≡ true) (put-mine ms p i {new} eq) vs) in "
    here_ = f"(r.s_place p k' c1 t1 in_n (subst (λ (next : Phase). scan_at next ≡ Some (k', (c1, t1))) (sym at_call) (ap seeker_at who1)))"
    spot = f"let spot = visited_place who {finding} (st.stands p).scans k' c1 t1 b' who1 stays {here_} now in "
    open_new = "let (c1, t1, who1, stays, same_n) = fresh_one in "
    TERM[(k_, "m_began")] = f"by_eq i p (λ eq. {now_in(was_old + bg0)} let given = mk.m_began p k' c' a' e' old in_n was bg0 in {grind(['given'])}) (λ ne. {other('m_began', new)})"
    TERM[(k_, "m_given")] = (f"by_eq i p (λ eq. {now_in(was_old + vs0)} elim vs0 [ inl before ↦ (let given = mk.m_given p k' c' a' e' old in_n was before in {grind(['given'])})"
                             f" | inr fresh_one ↦ ({open_new}{grind(['same_n', 'stays'])}) ]) (λ ne. {other('m_given', new)})")
    TERM[(k_, "m_coll")] = (f"by_eq i p (λ eq. {now_in(was_old + vs0)} elim vs0 [ inl before ↦ same ∙ mk.m_coll p k' c' a' e' old in_n was before"
                            f" | inr fresh_one ↦ ({open_new}{spot}let hm : c ≡ c1 = r.s_home p c1 t1 a e c in_n (subst (λ (next : Phase). sought_at next ≡ Some ((c1, t1), object a e c)) (sym at_call) (subst (λ (y : Seeker). seeker_owner y (object a e c) ≡ Some ((c1, t1), object a e c)) (sym who1) refl)) in grind (arith, spot, hm, same_n)) ]) (λ ne. {other('m_coll', new)})")
    met = f"mk.m_met p k' c' a' e' s' old in_n was (sym same ∙ of) bg0 {'(' + part['before'] + ')' if part['before'] != 'pr' else 'pr'} lt0"
    once = f"mk.m_once p k' c' a' e' s' old in_n was before {'(' + part['before'] + ')' if part['before'] != 'pr' else 'pr'}"
    owner_ = f"same_owner sh st h c' a' e' s' c0 t0 a e c ({part['before']}) sl cc0 own_back"
    LK = "let lk : state_in st.memory c e ≡ state.Locked a q = grind (arith, nat_tests, sw) in "
    if part["cond"]:
        met = f"by_true ({part['cond']}) (λ sw. {LK}let low : old.place ≤ forward_in st.memory c q = r.s_locked p k' c a e q old in_n lk was (grind (arith, nat_tests, sw, same, of)) in absurd ({grind(['lt0', 'sw', 'pr', 'low', '(copies h).j_led p c a e q (copy.Swing t) in_n'])})) (λ ns. {met})"
        once = (f"by_true ({part['cond']}) (λ sw. {LK}let as_before : (ms p).visited k' (object a e c) ≡ true = subst (λ (y : Number). (ms p).visited k' y ≡ true) ({grind(['sw', 'pr'])}) before in "
                "let high = mk.m_once p k' c a e q old in_n was as_before (grind (arith, lk)) in let low = r.s_locked p k' c a e q old in_n lk was (mk.m_coll p k' c a e old in_n was as_before) in "
                f"let aim = (moves h).locked c a e q lk in absurd (omega (arith, high, low, aim.3))) (λ ns. {once})")
        owner_ = f"by_true ({part['cond']}) (λ sw. {grind(['sw', 'pr'])}) (λ ns. {owner_})"
    stays_ = f"looked-stays sh who {n_} {finding} st.world (ms p) k' {N} "
    place_ = f"let place_so = look_place sh st h r p k' c0 t0 old {next_} in_n at_call who0 was in "
    pr0 = f"let pr0 : present_at ({part['form']}) ≡ Some (a, SLOT) = {grind(['pr', 'same_n', 'EQ'])} in "
    visit = (f"let own_back = look_back sh st h r p k' c0 t0 a e c {next_} in_n at_call who0 refl in let cc0 : c' ≡ c0 = {HOME} in let same_n : {N} ≡ {n_} = {owner_} in "
             + pr0.replace("SLOT", "t0").replace("EQ", "sl") + f"let stays : {finding} ≡ Stays t0 = {part['found'].replace(' T ', ' t0 ').replace('PR', 'pr0')} in "
             + f"subst (λ (y : Number). {new}.visited k' y ≡ true) (sym same_n) (visit_marks sh who {n_} {finding} st.world (ms p) k' c0 t0 who0 stays)")
    TERM[(k_, "m_met")] = (f"by_eq i p (λ eq. {now_in(was_old + bg0)} let early : s' < old.place → (ms p).visited k' {N} ≡ true = λ lt0. {met} in {BACK.replace('NEW', new)}(elim at ["
                           f" inl kept ↦ {stays_}(early (subst (λ (y : ℕ). s' < y) kept lt)) | inr left ↦ (let (c0, t0, who0, step0, decided) = left in {place_}by_eq s' t0 (λ sl. {visit}) (λ nt. {stays_}(early (omega (arith, nt, lt, step0, place_so.1))))) ])) (λ ne. {other('m_met', new, others.get('m_met', []))})")
    same_slot = (pr0.replace("SLOT", "s'").replace(", EQ", "") + f"let decided : is_decided {finding} ≡ true = subst (λ (y : Finding). is_decided y ≡ true) (sym stays) refl in "
                 f"let stays' : {finding} ≡ Stays s' = {part['found'].replace(' T ', chr(32) + 's' + chr(39) + ' ').replace('PR', 'pr0')} in grind (arith, stays, stays', spot)")
    TERM[(k_, "m_once")] = (f"by_eq i p (λ eq. {now_in(was_old + vs0)} elim vs0 [ inl before ↦ (let early : s' < old.place = {once} in elim at [ inl kept ↦ subst (λ (y : ℕ). s' < y) (sym kept) early"
                            f" | inr left ↦ (let (c0, t0, who0, step0, decided) = left in {place_}omega (arith, early, step0, place_so.1)) ]) | inr fresh_one ↦ ({open_new}{spot}{same_slot}) ]) (λ ne. {other('m_once', new, others.get('m_once', []))})")

# a scan that begins
NUM = "(scan_number p (st.stands p).begun)"
NEWM = f"(marks_told st.world (ms p) (Some (event.Begin {NUM} c)))"
IF_B = f"(if y then is_present st.world {N} else (ms p).began k' {N}) ≡ true"
IF_V = f"(if y then false else (ms p).visited k' {N}) ≡ true"
OLDER = f"let ns : (k' == {NUM}) ≡ false = {grind([f'r.s_fresh p k{chr(39)} b{chr(39)} in_n was'])} in "
NEWER = f"let named = scan_of-number ((st.stands p).scans ++ {T.NEW} ∷ []) k' b' now in let ns : (k' == {NUM}) ≡ true = {grind(['named', 'new'])} in "
BG0 = f"let bg0 : (if k' == {NUM} then is_present st.world {N} else (ms p).began k' {N}) ≡ true = subst (λ (x : Marks). x.began k' {N} ≡ true) (put-mine ms p i {NEWM} eq) bg in "
VS0 = f"let vs0 : (if k' == {NUM} then false else (ms p).visited k' {N}) ≡ true = subst (λ (x : Marks). x.visited k' {N} ≡ true) (put-mine ms p i {NEWM} eq) vs in "


def begins(fact, first, older, newer):
    TERM[("starts_scan", fact)] = f"by_eq i p (λ eq. {now_in(first)} elim ({T.BEGAN}) [ inl was ↦ ({OLDER}{older}) | inr new ↦ ({NEWER}{newer}) ]) (λ ne. {other(fact, NEWM)})"


OB = f"(subst (λ (y : Bool). {IF_B}) ns bg0)"
OV = f"(subst (λ (y : Bool). {IF_V}) ns vs0)"
NONE = f"let not_so : false ≡ true = subst (λ (y : Bool). {IF_V}) ns vs0 in absurd (cc)"
begins("m_began", BG0, f"let given = mk.m_began p k' c' a' e' b' in_n was {OB} in {grind(['given'])}", f"let present_so : is_present st.world {N} ≡ true = {OB} in {grind(['present_so', 'hr c' + chr(39) + ' a' + chr(39) + ' e' + chr(39)])}")
begins("m_given", VS0, f"let given = mk.m_given p k' c' a' e' b' in_n was {OV} in {grind(['given'])}", NONE)
begins("m_coll", VS0, f"mk.m_coll p k' c' a' e' b' in_n was {OV}", NONE)
begins("m_met", BG0, f"{BACK.replace('NEW', NEWM)}(subst (λ (y : Bool). {IF_V}) (sym ns) (mk.m_met p k' c' a' e' s' b' in_n was of {OB} pr lt))", "absurd (grind (arith, new, lt))")
begins("m_once", VS0, f"mk.m_once p k' c' a' e' s' b' in_n was {OV} pr", NONE)
