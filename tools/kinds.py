"""The kinds of step: one entry for each phase of each call, as the laws speak of it.

An entry says the step's kind, the variables of its phase, the choice, the section, the phase, the operation and the
class of words that it writes (None for a load), and what is known beside them where the call is made.
"""
import re

N = "ℕ"
IN = "(Inside x calm)"
TYPES = {"ws": "List ℕ", "d": "Dir", "m": "Walk", "g": "Targets", "who": "Seeker", "gone": "Bool", "cnt": "Count", "b1": "Scan", "sec": "Section", "own": "Owned"}
X = [("x", N), ("calm", "Bool")]
K = []


def v(names):
    return [(n, TYPES.get(n, N)) for n in names.split()]


def kind(group, name, step, vars, choice, sec, call, op, writes, pre=()):
    home = re.findall("⟪(.*?)⟫", call)     # the collection of the object, where it is that of the walk
    at = lambda text, coll: re.sub("⟪.*?⟫", coll, text) if home else text
    K.append(dict(home=home[0] if home else None, at=(at(call, "k"), at(op, "k"))))
    call, op = (at(call, home[0]), at(op, home[0])) if home else (call, op)
    K[-1].update(dict(group=group, name=name, step=step, vars=vars, choice=choice, sec=sec, call=call, op=op, writes=writes, pre=list(pre)))


def start(group, name, step, names, call, op, writes, pre=(), sec=IN):
    kind(group, name, step, (X if sec == IN else []) + v(names), f"(Start {call})", sec, "phase.Idle", op, writes, pre)


def goes(group, name, step, names, call, op, writes, sec=IN, more=()):
    kind(group, name, step, (X if sec == IN else list(more)) + v(names), "Go", sec, f"({call})", op, writes)


def dirs(c, s): return f"(place.Directory {c} {s})"
def entry(c, e): return f"(place.Entry {c} {e})"
def back(c, s): return f"(place.Back {c} {s})"
def fwd(c, s): return f"(place.Forward {c} {s})"
def field(c, s, f): return f"(place.Field {c} {s} {f})"
def D(d): return f"(word.Directory {d})"
def E(e): return f"(word.Entry ({e}))"


OWNWORD = "(Load (place.Section p))"
HELD = "held_slot (st.stands p).held (object a e c) ≡ Some q"
ROUND = "(st.stands p).round ≡ Some (record { bound = b; coll = c })"

# sections and advances
start("Sections", "enter", "LoadEpoch", "", "call.Enter", "(Load place.Epoch)", None, sec="Outside")
for name, step, names, sec, op, w in (
        ("announce", "Announce", "v", "(Loaded v)", "(Store (place.Section p) (word.Plain v))", "section"),
        ("again", "LoadEpochAgain", "v", "(Announced v)", "(Load place.Epoch)", None),
        ("lasting", "AnnounceAgain", "v z", "(Again v z)", "(Store (place.Section p) (word.Plain z))", "section"),
        ("entered", "LoadRound", "z", "(Lasting z)", "(Load place.Round)", None)):
    kind("Sections", name, step, v(names), "Go", sec, "phase.Entering", op, w)
start("Sections", "leave", "Leave", "", "call.Leave", "(Store (place.Section p) (word.Plain 0))", "section")
start("Sections", "advance", "StartAdvance", "", "call.Advance", "(Load place.Epoch)", None, sec="Outside")
kind("Sections", "advancing", "LoadSection", v("sec z k"), "Go", "sec", "(phase.Advancing z k)", "(Load (place.Section k))", None)
kind("Sections", "ready", "AdvanceEpoch", v("sec z"), "Go", "sec", "(phase.Ready z)", "(Exchange place.Epoch (word.Plain z) (word.Plain (z + 1)))", "epoch")
start("Sections", "note", "LoadEpoch", "", "call.Note", "(Load place.Epoch)", None, sec="Outside")
start("Sections", "learn", "LoadEpoch", "k z", "(call.Learn k z)", "(Load place.Epoch)", None, sec="Outside")

# add
def add(name, step, names, con, op, w): goes("Adds", name, step, names, f"phase.Add (add.{con})", op, w)
NUM = "(object a e c)"
start("Adds", "starts_add", "LoadDirectory", "c k ws", "(call.Add c k ws)", f"(Load {dirs('c', 'k')})", None, pre=["takes sh c k ws ≡ true"])
add("find_slot", "LoadDirectory", "c k s t", "FindSlot c k s t", f"(Load {dirs('c', 's')})", None)
add("claim_slot", "ClaimSlot", "c k s t d", "ClaimSlot c k s t d", f"(Exchange {dirs('c', 's')} {D('d')} {D('dir.Claimed')})", "dir")
add("find_entry", "LoadEntry", "c s e t", "FindEntry c s e t", f"(Load {entry('c', 'e')})", None)
add("claim_entry", "ClaimEntry", "c s e t a z", "ClaimEntry c s e t a z", f"(Exchange {entry('c', 'e')} {E('state.Free a z')} {E('state.Claimed (a + 1)')})", "entry")
add("drop_slot", "DropSlot", "c s", "DropSlot c s", f"(Store {dirs('c', 's')} {D('dir.Free')})", "dir")
add("store_back", "StoreBack", "c s a e", f"StoreBack s {NUM}", f"(Store {back('c', 's')} (word.Back (Some {NUM})))", "back")
add("store_field", "StoreField", "c s a e f", f"StoreField s {NUM} f", f"(Store {field('c', 's', 'f')} (word.Plain (slice_index (st.stands p).words f)))", "field")
add("store_valid", "StoreValid", "c s a e", f"StoreValid s {NUM}", f"(Store {dirs('c', 's')} {D('dir.Valid')})", "dir")
add("store_live", "StoreLive", "c s a e", f"StoreLive s {NUM}", f"(Store {entry('c', 'e')} {E('state.Present a s')})", "entry")

# look up, help, abandon
HAS = "has_place sh (place.Entry c e)"
start("Looks", "starts_look", "LookUp", "c a e", f"(call.Look {NUM})", f"(Load {entry('c', 'e')})", None, pre=[f"{HAS} ≡ true"])
start("Looks", "look_out", "LoadSection", "c a e", f"(call.Look {NUM})", OWNWORD, None, pre=[f"{HAS} ≡ false"])
goes("Looks", "look_load", "LookUp", "who c a e", f"phase.Look (look.Load who {NUM})", f"(Load {entry('c', 'e')})", None)
goes("Looks", "abandon", "Unfreeze", "who c a e q", f"phase.Look (look.Abandon who {NUM} q)", f"(Exchange {entry('c', 'e')} {E('state.Frozen a q')} {E('state.Present a q')})", "entry")


def copy(group, pref, names, wrap, c):
    goes(group, pref + "_fwd", "LoadForward", names, wrap("copy.Target"), f"(Load {fwd(c, 'q')})", None)
    goes(group, pref + "_read", "LoadField", names + " t f", wrap("(copy.Load t f)"), f"(Load {field(c, 'q', 'f')})", None)
    goes(group, pref + "_put", "CopyField", names + " t f w", wrap("(copy.Put t f w)"), f"(Exchange {field(c, 't', 'f')} (word.Plain BLANK) (word.Plain w))", "field")
    goes(group, pref + "_swing", "Swing", names + " t", wrap("(copy.Swing t)"), f"(Exchange {entry(c, 'e')} {E('state.Locked a q')} {E('state.Present a t')})", "entry")


copy("Helps", "l", "who c a e q", lambda z: f"phase.Look (look.Help who {NUM} q {z})", "c")

# read, write, remove
start("Holds", "read", "LoadField", "c a e q f", f"(call.Read {NUM} f)", f"(Load {field('c', 'q', 'f')})", None, pre=[HELD, "nat_lt f (width_of sh c) ≡ true"])
start("Holds", "write", "WriteField", "c a e q f w", f"(call.Write {NUM} f w)", f"(Store {field('c', 'q', 'f')} (word.Plain w))", "field", pre=[HELD, "(nat_lt f (width_of sh c) && is_value w) ≡ true"])
start("Holds", "starts_remove", "MarkGone", "c a e q", f"(call.Remove {NUM})", "(MarkGone c e)", "entry", pre=[HELD])
goes("Holds", "leave_slot", "LeaveSlot", "c a e q", f"phase.Remove (remove.LeaveSlot q {NUM})", f"(Store {dirs('c', 'q')} {D('(dir.Limbo (x + 1))')})", "dir")
goes("Holds", "free_entry", "FreeEntry", "c a e", f"phase.Remove (remove.FreeEntry {NUM})", f"(Store {entry('c', 'e')} {E('state.Free a (x + 1)')})", "entry")

# scans and surveys
start("Scans", "starts_scan", "LoadSection", "c", "(call.Scan c)", OWNWORD, None)
BEGUN = "scan_of (st.stands p).scans k ≡ Some b1"
start("Scans", "next_over", "LoadSection", "k b1", "(call.Next k)", OWNWORD, None, pre=[BEGUN, "is_over sh b1 ≡ true"])
start("Scans", "next_slot", "LoadDirectory", "k b1", "(call.Next k)", f"(Load {dirs('b1.coll', 'b1.place')})", None, pre=[BEGUN, "is_over sh b1 ≡ false"])
goes("Scans", "scan_dir", "LoadDirectory", "k c t", "phase.Scan (scan.Directory k c t)", f"(Load {dirs('c', 't')})", None)
goes("Scans", "scan_back", "LoadBack", "k c t", "phase.Scan (scan.Back k c t)", f"(Load {back('c', 't')})", None)
goes("Scans", "scan_end", "LoadSection", "k", "phase.Scan (scan.End k)", OWNWORD, None)
start("Scans", "survey", "LoadDirectory", "c", "(call.Survey c)", f"(Load {dirs('c', '0')})", None)
goes("Scans", "survey_dir", "LoadDirectory", "c t cnt", "phase.Survey (walk.Directory c t cnt)", f"(Load {dirs('c', 't')})", None)
goes("Scans", "survey_back", "LoadBack", "c t cnt", "phase.Survey (walk.Back c t cnt)", f"(Load {back('c', 't')})", None)
goes("Scans", "survey_entry", "LoadEntry", "c t cnt c2 a e", "phase.Survey (walk.Entry c t cnt (object a e c2))", f"(Load {entry('c2', 'e')})", None)

# begin
start("Begins", "starts_begin", "OpenRound", "c", "(call.Begin c)", "(Exchange place.Round (word.Round None) (word.Round (Some (record { bound = x + 1; pass = p; coll = c }))))", "round")
def beg(group, name, step, names, con, op, w): goes(group, name, step, names, f"phase.Begin (begin.{con})", op, w)
beg("Begins", "count_dir", "LoadDirectory", "c t cnt", "Count (walk.Directory c t cnt)", f"(Load {dirs('c', 't')})", None)
beg("Begins", "count_back", "LoadBack", "c t cnt", "Count (walk.Back c t cnt)", f"(Load {back('c', 't')})", None)
beg("Begins", "count_entry", "LoadEntry", "c t cnt c2 a e", "Count (walk.Entry c t cnt (object a e c2))", f"(Load {entry('c2', 'e')})", None)
beg("Begins", "nothing", "CloseRound", "c", "Nothing c", "(Store place.Round (word.Round None))", "round")
MN = "(object a e ⟪m.coll⟫)"
MT = dirs("m.coll", "m.target")
beg("Begins", "source_dir", "LoadDirectory", "m", "SourceDirectory m", f"(Load {dirs('m.coll', 'm.source')})", None)
beg("Begins", "source_back", "LoadBack", "m", "SourceBack m", f"(Load {back('m.coll', 'm.source')})", None)
beg("Begins", "source_entry", "LoadEntry", "m a e", f"SourceEntry m {MN}", f"(Load {entry('⟪m.coll⟫', 'e')})", None)
beg("Targets", "target_dir", "LoadDirectory", "m a e", f"TargetDirectory m {MN}", f"(Load {MT})", None)
beg("Targets", "claim_target", "ClaimSlot", "m a e d", f"ClaimTarget m {MN} d", f"(Exchange {MT} {D('d')} {D('dir.Claimed')})", "dir")
beg("Targets", "blank_field", "StoreField", "m a e f", f"BlankField m {MN} f", f"(Store {field('m.coll', 'm.target', 'f')} (word.Plain BLANK))", "field")
beg("Targets", "name_target", "StoreBack", "m a e", f"StoreBack m {MN}", f"(Store {back('m.coll', 'm.target')} (word.Back (Some {MN})))", "back")
beg("Targets", "lead_source", "StoreForward", "m a e", f"StoreForward m {MN}", f"(Store {fwd('m.coll', 'm.source')} (word.Forward m.target))", "fwd")
beg("Targets", "store_incoming", "StoreIncoming", "m a e", f"StoreIncoming m {MN}", f"(Store {MT} {D('dir.Incoming')})", "dir")
beg("Targets", "freeze", "Freeze", "m a e", f"Freeze m {MN}", f"(Exchange {entry('⟪m.coll⟫', 'e')} {E('state.Present a m.source')} {E('state.Frozen a m.source')})", "entry")
beg("Targets", "begin_gives", "LeaveSlot", "m", "GiveUp m", f"(Store {MT} {D('(dir.Limbo (x + 1))')})", "dir")

# finish
start("Finishes", "starts_finish", "LoadDirectory", "b c", "call.Finish", f"(Load {dirs('c', '0')})", None, pre=[ROUND, "is_early x b ≡ false"])
start("Finishes", "finish_early", "LoadSection", "b c", "call.Finish", OWNWORD, None, pre=[ROUND, "is_early x b ≡ true"])
GN = "(object a e ⟪g.coll⟫)"
GT = dirs("g.coll", "g.slot")
def fin(group, name, step, names, con, op, w): goes(group, name, step, names, f"phase.Finish (finish.{con})", op, w)
fin("Finishes", "finish_dir", "LoadDirectory", "g", "Directory g", f"(Load {GT})", None)
fin("Finishes", "finish_back", "LoadBack", "g", "Back g", f"(Load {back('g.coll', 'g.slot')})", None)
fin("Finishes", "finish_entry", "LoadEntry", "g a e", f"Entry g {GN}", f"(Load {entry('⟪g.coll⟫', 'e')})", None)
fin("Finishes", "lock", "Lock", "g a e q", f"Lock g {GN} q", f"(Exchange {entry('⟪g.coll⟫', 'e')} {E('state.Frozen a q')} {E('state.Locked a q')})", "entry")
copy("Finishes", "f", "g a e q", lambda z: f"phase.Finish (finish.Move g {GN} q {z})", "⟪g.coll⟫")
fin("Finishes", "settle", "Settle", "g q", "Settle g q", f"(Exchange {GT} {D('dir.Incoming')} {D('dir.Valid')})", "dir")
fin("Finishes", "leave_source", "LeaveSlot", "g q", "LeaveSource g q", f"(Store {dirs('g.coll', 'q')} {D('(dir.Limbo (x + 1))')})", "dir")
fin("Finishes", "finish_gives", "LeaveSlot", "g gone", "GiveUp g gone", f"(Store {GT} {D('(dir.Limbo (x + 1))')})", "dir")
fin("Finishes", "finish_ends", "CloseRound", "g", "End g", "(Store place.Round (word.Round None))", "round")

# cancel
start("Cancels", "starts_cancel", "LoadDirectory", "b c", "call.Cancel", f"(Load {dirs('c', '0')})", None, pre=[ROUND])
def can(name, step, names, con, op, w): goes("Cancels", name, step, names, f"phase.Cancel (cancel.{con})" if con != "End" else "phase.Cancel cancel.End", op, w)
can("cancel_dir", "LoadDirectory", "c t", "Directory c t", f"(Load {dirs('c', 't')})", None)
can("cancel_back", "LoadBack", "c t", "Back c t", f"(Load {back('c', 't')})", None)
CN = "(object a e ⟪c⟫)"
can("cancel_entry", "LoadEntry", "c t a e", f"Entry c t {CN}", f"(Load {entry('⟪c⟫', 'e')})", None)
can("unfreeze", "Unfreeze", "c t a e q", f"Unfreeze c t {CN} q", f"(Exchange {entry('⟪c⟫', 'e')} {E('state.Frozen a q')} {E('state.Present a q')})", "entry")
can("cancel_gives", "LeaveSlot", "c t", "GiveUp c t", f"(Store {dirs('c', 't')} {D('(dir.Limbo (x + 1))')})", "dir")
can("cancel_ends", "CloseRound", "", "End", "(Store place.Round (word.Round None))", "round")

GROUPS = []
for k in K:
    if k["group"] not in GROUPS:
        GROUPS.append(k["group"])
BY = {k["name"]: k for k in K}

# the steps that change the plain world
WORLD = {"store_live", "write", "starts_remove"}
