"""The facts of the agreement: for each its name, the names of its variables and premises, the classes of words that it
reads, and which facts of its own part each goal is told by default; and for single goals what more they are told."""
from kinds import K, BY

F = {"calls": "(calls h)", "copies": "(copies h)", "claims": "(claims h)", "objects": "(objects h)", "moves": "(moves h)", "records": "r", "scans": "r", "uses": "r"}
C = []


def fact(part, name, binders, takes, reads, local=True):
    """takes: the arguments of the same fact of the state before, told to each goal"""
    C.append(dict(part=part, name=name, bind=binders, takes=takes, reads=reads.split(), local=local))


CJ = "i c' a' e' s' n' li"
fact("calls", "calls", "i li", "i li", "")
fact("calls", "c_slot", "i c' s' li is", "i c' s' li", "dir")
fact("calls", "c_entry", "i c' a' e' li is", "i c' a' e' li", "entry")
fact("calls", "c_named", "i c' s' a' e' li is", "i c' s' a' e' li", "back")
fact("calls", "c_target", "i c' s' li is", "i c' s' li", "dir")
fact("calls", "c_lives", "i c' s' a' e' li is", "i c' s' a' e' li", "dir")
fact("calls", "c_leads", "i c' s' t' li is", "i c' s' t' li", "fwd")
fact("calls", "c_origin", "i c' s' a' e' li is", "i c' s' a' e' li", "entry")
fact("calls", "c_source", "i c' s' a' e' li is", "i c' s' a' e' li", "back")
fact("calls", "c_resting", "i c' s' a' e' li is", "i c' s' a' e' li", "dir")
fact("calls", "c_loose", "i c' s' a' e' li is nm", "i c' s' a' e' li", "entry back")
fact("calls", "c_tries", "i c' s' a' e' li is", "i c' s' a' e' li", "entry")
fact("calls", "c_removes", "i c' a' e' li is", "i c' a' e' li", "entry")
fact("calls", "c_leaving", "i c' s' a' e' li is", "i c' s' a' e' li", "entry")
fact("calls", "c_limbos", "i c' s' a' e' li is", "i c' s' a' e' li", "dir")
fact("calls", "c_frees", "i c' s' a' e' li is st'", "i c' s' a' e' li", "dir entry")
fact("calls", "c_leaves", "i c' s' li is", "i c' s' li", "dir")
fact("calls", "c_apart", "i c' s' a' e' li is nm", "i c' s' a' e' li", "back entry")
fact("calls", "c_moved", "i c' s' a' e' li is nm", "i c' s' a' e' li", "back entry")
fact("calls", "c_ends", "i c' s' t' li is", "i c' s' t' li", "dir")
fact("calls", "c_passed", "i c' s' li is", "i c' s' li", "dir")
for n, r in (("j_named", "back"), ("j_led", "fwd"), ("j_entry", "entry"), ("j_locked", "entry dir fwd"), ("j_left", "dir"), ("j_for", "dir fwd")):
    fact("copies", n, CJ + " is" + (" lk" if n == "j_locked" else ""), CJ, r)
fact("copies", "j_back", CJ + " is inc", CJ, "dir back fwd")
fact("claims", "one_slot", "i j c' s' li lj ei ej", "i j c' s' li lj", "")
fact("claims", "one_entry", "i j c' a' b' e' li lj ei ej", "i j c' a' b' e' li lj", "")
fact("claims", "one_gone", "i j c' a' b' e' li lj ei ej", "i j c' a' b' e' li lj", "")
fact("claims", "claimed", "c' s' is", "c' s'", "dir")
fact("claims", "taken", "c' a' e' is", "c' a' e'", "entry")
fact("claims", "removed", "c' a' e' is", "c' a' e'", "entry")
fact("objects", "standing", "c' a' e' s' is", "c' a' e' s'", "entry back", False)
fact("objects", "placed", "c' a' e' s' is", "c' a' e' s'", "entry dir", False)
fact("objects", "held", "i c' a' e' s' li is", "i c' a' e' s' li", "entry dir back")
fact("objects", "one_held", "i j c' a' e' s' t' li lj hi hj", "i j c' a' e' s' t' li lj", "")
fact("objects", "stamp_dir", "c' s' z' is", "c' s' z'", "dir epoch", False)
fact("objects", "stamp_entry", "c' e' a' z' is", "c' e' a' z'", "entry epoch", False)
fact("moves", "standing_in", "i c' a' e' s' li o is inc", "i c' a' e' s' li", "entry dir")
fact("moves", "incoming_round", "c' s' inc", "c' s'", "dir round", False)
fact("moves", "incoming_in", "c' s' inc", "c' s'", "dir", False)
fact("moves", "incoming_known", "c' s' a' e' inc nm", "c' s' a' e'", "dir back entry", False)
fact("moves", "incoming_fwd", "c' t' a' e' s' inc nm is", "c' t' a' e' s'", "dir back entry fwd", False)
fact("moves", "unpassed", "i c' s' li o inc", "i c' s' li", "dir")
fact("moves", "ahead", "i c' t' a' e' s' li inc nm is", "i c' t' a' e' s' li", "dir back entry")
fact("moves", "frozen", "c' a' e' s' is", "c' a' e' s'", "entry round dir fwd back", False)
fact("moves", "frozen_held", "i c' a' e' s' t' r' li is r hd", "i c' a' e' s' t' r' li", "entry round")
fact("moves", "frozen_copy", "i c' a' e' s' r' li is r cp", "i c' a' e' s' r' li", "entry round")
fact("moves", "abandon", "i c' a' e' s' t' r' li ab is r", "i c' a' e' s' t' r' li", "entry round")
fact("moves", "locked", "c' a' e' s' is", "c' a' e' s'", "entry round dir fwd back", False)
fact("moves", "locked_owner", "i c' a' e' s' li o is", "i c' a' e' s' li", "entry fwd")
fact("moves", "begin_copy", "i j c' s' a' e' t' n' li lj sr cp", "i j c' s' a' e' t' n' li lj", "")
# fields and records
fact("records", "given_in", "c' a' e' is", "c' a' e'", "entry world", False)
fact("records", "given_of", "c' a' e' is", "c' a' e'", "entry world", False)
fact("records", "no_others", "c' a' e' is", "c' a' e'", "world", False)
fact("records", "is_here", "c' a' e'", "c' a' e'", "entry world", False)
fact("records", "since", "c' e'", "c' e'", "entry", False)
fact("records", "values", "c' a' e' k' v' is", "c' a' e' k' v'", "world", False)
fact("records", "c_record", "i c' li is", "i c' li", "")
fact("records", "c_values", "i c' k' li is lt", "i c' k' li", "")
fact("records", "c_stored", "i c' s' a' e' y' k' li is lt", "i c' s' a' e' y' k' li", "field")
fact("records", "c_blanks", "i c' s' y' k' li is lt", "i c' s' y' k' li", "field")
fact("records", "placed_record", "c' a' e' s' k' is lt", "c' a' e' s' k'", "entry field world", False)
fact("records", "held_record", "i c' a' e' s' k' li is lt", "i c' a' e' s' k' li", "field world")
fact("records", "frozen_blank", "c' a' e' s' k' is lt", "c' a' e' s' k'", "entry field fwd", False)
fact("records", "locked_fields", "c' a' e' s' k' is lt", "c' a' e' s' k'", "entry field fwd", False)
fact("records", "j_passed", "i c' a' e' s' k' n' li is lt", "i c' a' e' s' k' n' li", "field fwd")
fact("records", "j_word", "i c' a' e' s' f' v' n' li is lk ld", "i c' a' e' s' f' v' n' li", "entry field")
fact("records", "j_fields", "i c' a' e' s' k' n' li is lt", "i c' a' e' s' k' n' li", "entry field fwd")
BC = {c["name"]: c for c in C}
# scans and uses: their facts are added at the end, by facts_scans.py and facts_uses.py
PARTS = ["calls", "copies", "claims", "objects", "moves"]


def at(text):
    """the term for 'fact args'"""
    name = text.split()[0]
    return f"{F[BC[name]['part']]}.{text}" if name in BC else text


OWN = {}


def own(kinds, *facts):
    for n in kinds.split():
        assert n in BY, n
        OWN.setdefault(n, []).extend(at(f) for f in facts)


# what the call of the pass itself knows, by its phase
own("find_entry claim_entry drop_slot store_back store_field store_valid", "c_slot p c s in_n")
own("blank_field name_target lead_source store_incoming", "c_slot p m.coll m.target in_n")
own("store_back store_field store_valid store_live", "c_entry p c a e in_n")
own("store_field store_valid store_live", "c_named p c s a e in_n")
own("store_live", "c_lives p c s a e in_n")
own("lead_source store_incoming freeze", "c_named p m.coll m.target a e in_n")
own("finish_entry lock", "c_named p g.coll g.slot a e in_n")
own("cancel_entry unfreeze", "c_named p c t a e in_n")
own("freeze begin_gives", "c_target p m.coll m.target in_n")
own("finish_back finish_entry lock finish_gives", "c_target p g.coll g.slot in_n")
own("cancel_back cancel_entry unfreeze cancel_gives", "c_target p c t in_n")
own("store_incoming freeze begin_gives", "c_leads p m.coll m.source m.target in_n")
SOURCES = "target_dir claim_target blank_field name_target lead_source store_incoming freeze"
own(SOURCES, *(f"{n} p m.coll m.source a e in_n" for n in ("c_origin", "c_source", "c_resting")))
own("lock", "c_tries p g.coll q a e in_n")
own("unfreeze", "c_tries p c q a e in_n")
own("leave_slot free_entry", "c_removes p c a e in_n")
own("leave_slot", "c_leaving p c q a e in_n", "c_limbos p c q a e in_n")
FCOPY = "f_fwd f_read f_put f_swing"
own(FCOPY, "c_leads p g.coll q g.slot in_n")
own(FCOPY + " settle leave_source", "c_leaves p g.coll q in_n")
own(FCOPY, "c_apart p g.coll q a e in_n")
own("settle", "c_ends p g.coll q g.slot in_n")
own("leave_source", "c_passed p g.coll g.slot in_n")
own("write starts_remove", "held p c a e q in_n pre1")
JS = [c["name"] for c in C if c["part"] == "copies"]
STAGES = {"fwd": "copy.Target", "read": "(copy.Load t f)", "put": "(copy.Put t f w)", "swing": "(copy.Swing t)"}
for pref, c in (("l", "c"), ("f", "g.coll")):
    for stage, next_ in STAGES.items():
        own(f"{pref}_{stage}", *(f"{j} p {c} a e q {next_} in_n" for j in JS))
# the same for an object that is named by a slot, told to goals with an object of their own
NAMED = {
    "begin_gives": ["c_loose p m.coll m.target a' e' in_n"],
    "finish_gives": ["c_loose p g.coll g.slot a' e' in_n"],
    "cancel_gives": ["c_loose p c t a' e' in_n"],
    "settle": ["c_apart p g.coll q a' e' in_n", "c_moved p g.coll q a' e' in_n"],
    "leave_source": ["c_apart p g.coll q a' e' in_n", "c_moved p g.coll q a' e' in_n"],
}
FREES = {"free_entry": ["c_frees p c s' a e in_n"]}

SEC = "sections sh st h p in_n"
SI = "sections sh st h i li"
CI = "calls i li"
OIP = "owner_same sh st h i p li in_n"
BELOW = {k: "below sh st h p in_n " + BY[k]["call"].replace("(phase.Begin ", "")[:-1] + " at_call" for k in SOURCES.split() + ["begin_gives", "source_dir", "source_back", "source_entry"]}

MORE = {}      # (kind, fact) -> further terms
TERM = {}      # (kind, fact) -> the whole term


def tell(fact_, kinds, *terms):
    for k in kinds.split():
        assert k in BY, k
        assert fact_ in BC, fact_
        MORE.setdefault((k, fact_), []).extend(terms)


# what the call knows of fields, told to the goals of that part
OWN_FIELDS = {}


def own_fields(kinds, *facts):
    for n in kinds.split():
        assert n in BY, n
        OWN_FIELDS.setdefault(n, []).extend(at(f) for f in facts)


own_fields("find_slot claim_slot find_entry claim_entry store_back store_field store_valid store_live", "c_record p c in_n", "c_values p c k' in_n")
own_fields("store_field", "c_stored p c s a e f k' in_n")
own_fields("store_valid store_live", "c_stored p c s a e (width_of sh c) k' in_n")
own_fields("blank_field", "c_blanks p m.coll m.target f k' in_n")
own_fields("name_target lead_source store_incoming freeze begin_gives", "c_blanks p m.coll m.target (width_of sh m.coll) k' in_n")
for pref, c in (("l", "c"), ("f", "g.coll")):
    for stage, next_ in STAGES.items():
        own_fields(f"{pref}_{stage}", f"j_passed p {c} a e q k' {next_} in_n", f"j_fields p {c} a e q k' {next_} in_n")
    own_fields(f"{pref}_put", f"j_word p {c} a e q f w (copy.Put t f w) in_n")
own_fields("write starts_remove", "held_record p c a e q k' in_n pre1")

exec(open(__file__.replace("facts.py", "special.py")).read())
# scans, and users of slots
exec(open(__file__.replace("facts.py", "facts_scans.py")).read())
exec(open(__file__.replace("facts.py", "facts_uses.py")).read())
