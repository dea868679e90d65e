#!/usr/bin/env python3
"""Writes the lemmas that each step keeps the agreement: a file for each part of it and each group of steps.

tools/laws.py CRATE PART [PART ..]      writes crates/CRATE/proofs/PartGroup.antt for these parts
What people edit are the tables kinds.py (steps) and facts.py with special.py (facts, and what single goals are told).
"""
import os
import sys

sys.path.insert(0, os.path.dirname(os.path.abspath(__file__)))
from kinds import K, GROUPS, BY, WORLD
import facts as T

TOP = os.path.dirname(os.path.dirname(os.path.abspath(__file__)))
RECORDS = {"calls": "CallsAgree", "copies": "CopiesAgree", "claims": "ClaimsAgree", "objects": "ObjectsAgree", "moves": "MovesAgree", "records": "RecordsAgree opened", "scans": "ScansAgree", "uses": "UsesAgree"}
MORE = {"records": "RecordsAgree opened sh st", "scans": "ScansAgree sh st", "uses": "UsesAgree sh st"}
BY_HAND = {"scans": "smc_inv_scan.specs.Scans", "uses": "smc_inv_use.specs.Uses"}     # parts of crates that have files written by hand too
HEAD = open(os.path.join(TOP, "tools", "head.txt")).read()


def strip(t):
    return t[1:-1] if t.startswith("(") else t


def unique(terms):
    out = []
    for t in terms:
        if t not in out:
            out.append(t)
    return out


def told(k, c):
    if c["part"] == "scans":
        return T.told_scans(k, c)
    out = list(T.OWN.get(k["name"], []))
    if "a'" in c["bind"].split() and "e'" in c["bind"].split():
        out += [T.at(t) for t in T.NAMED.get(k["name"], [])]
    if "s'" in c["bind"].split():
        out += [T.at(t) for t in T.FREES.get(k["name"], [])]
    if c["part"] == "records":
        bound = c["bind"].split()
        out += [t for t in T.OWN_FIELDS.get(k["name"], []) if ("k'" not in t.split()) or "k'" in bound]
    if k["name"] in T.BELOW:
        out.append(T.BELOW[k["name"]])
    if k["sec"] != "Outside":
        out += [T.at("calls p in_n"), T.SEC]
    return out


def grind(terms):
    return "grind (arith, nat_tests" + "".join(", " + (t if t.startswith("(") and ")." in t else f"{t}") for t in unique(terms)) + ")"


def term(k, c):
    key = (k["name"], c["name"])
    head = f"λ {c['bind']}. "
    if key in T.TERM:
        return head + T.TERM[key]
    touched = k["writes"] in c["reads"] or ("world" in c["reads"] and k["name"] in WORLD)
    same = T.at(f"{c['name']}")
    if not touched and not c["local"]:
        return same
    return head + grind([T.at(f"{c['name']} {c['takes']}")] + told(k, c) + [T.at(t) for t in T.MORE.get(key, [])])


def binders(k):
    return "".join(f" ({n} : {t})" for n, t in k["vars"])


def lemma(k, part):
    record = RECORDS[part]
    names = "".join(" " + n for n, _ in k["vars"])
    learns = " (told : ℕ)"
    pre = "".join(q + " → " for q in k["pre"])
    pres = "".join(f" pre{i + 1}" for i in range(len(k["pre"])))
    more = MORE.get(part, "Nothing sh st")
    first = "(opened : ℕ) " if part == "records" else ""
    out = f"-- kind {k['step']}\npub {k['name']} : {first}(sh : Layout) (st : S.State) (p : ℕ){binders(k)}{learns} → p < sh.passes → (st.stands p).section ≡ {strip(k['sec'])} → (st.stands p).phase ≡ {strip(k['call'])} → {pre}Shut sh st → {more}\n"
    out += f"    → {record} sh (did sh st p {k['choice']} {k['sec']} {k['call']} told {k['op']})\n"
    opened = "opened " if part == "records" else ""
    out += f"{k['name']} {opened}sh st p{names} told in_n at_sec at_call{pres} h {'r' if part in MORE else '_'} ="
    end = "}\n\n"
    if part == "records" and k["name"] not in WORLD:
        out += (f" in_world (RecordsAgree opened sh) (apply {k['op']} st.memory) (put_stand st.stands p (moved sh p (st.stands p) {k['sec']} {k['call']} {k['choice']} told (seen {k['op']} st.memory))) st.world\n"
                f"    (change sh p (st.stands p) {k['sec']} {k['call']} {k['choice']} told (seen {k['op']} st.memory)).event {T.QUIET.get(k['name'], '(grind (arith, nat_tests))')} (")
        end = "})\n\n"
    out += " record {\n"
    for c in T.C:
        if c["part"] == part:
            out += f"  {c['name']} = {term(k, c)};\n"
    return out + end


def main():
    crate, parts = sys.argv[1], sys.argv[2:]
    only = os.environ.get("ONLY", "").split()
    folder = os.path.join(TOP, "crates", crate, "proofs")
    os.makedirs(folder, exist_ok=True)
    lines = []
    for part in parts:
        for g in GROUPS:
            name = part.capitalize() + g
            lines.append(name)
            text = f"-- Steps keep the agreement: {part}, {g.lower()}. Written by tools/laws.py.\n" + HEAD.rstrip() + "\n" + (open(os.path.join(TOP, "tools", f"head_{part}.txt")).read() if part in MORE else "\n")
            for k in K:
                if k["group"] == g and (not only or k["name"] in only):
                    text += lemma(k, part)
            open(os.path.join(folder, name + ".antt"), "w").write(text)
    for part in parts:
        name = "Each" + part.capitalize()
        lines.append(name)
        text = f"-- Each kind of step keeps the {part}. Written by tools/laws.py.\nuse Rattle.smc_agreement.specs.Agreement.{{{RECORDS[part]}}}\nuse Rattle.smc_agreement.proofs.EachKind.{{EachKind}}\nuse Rattle.smc_agreement.specs.Kept.{{Nothing}}\n"
        for g in GROUPS:
            text += f"use Rattle.{crate}.proofs.{part.capitalize() + g}.{{{', '.join(k['name'] for k in K if k['group'] == g)}}}\n"
        if part == "records":
            text = text.replace("Agreement.{RecordsAgree opened}", "Records.{RecordsAgree}")
            text = text.replace("Each kind", "Each kind") + "use Rattle.std.specs.Prelude.{ℕ}\n"
            text += f"\npub records-each : (opened : ℕ) → EachKind (RecordsAgree opened) (RecordsAgree opened)\nrecords-each opened = record {{\n" + "".join(f"  {k['name']} = {k['name']} opened;\n" for k in K) + "}\n"
            open(os.path.join(folder, name + ".antt"), "w").write(text)
            continue
        if part in BY_HAND:
            text = text.replace("smc_agreement.specs.Agreement", BY_HAND[part])
        premise = RECORDS[part] if part in MORE else "Nothing"
        text += f"\npub {part}-each : EachKind {premise} {RECORDS[part]}\n{part}-each = record {{\n" + "".join(f"  {k['name']} = {k['name']};\n" for k in K) + "}\n"
        open(os.path.join(folder, name + ".antt"), "w").write(text)
    # some parts have files written by hand beside these
    by_hand = sorted(f[:-5] for f in os.listdir(folder) if f.endswith(".antt") and f != "Lib.antt" and f[:-5] not in lines) if parts[0] in BY_HAND else []
    print("\n".join("pub mod " + n for n in by_hand + lines))


main()
