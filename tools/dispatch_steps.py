#!/usr/bin/env python3
"""Writes crates/smc_inv_scan/proofs/EachStep.antt from crates/smc_agreement/proofs/EachKind.antt: the same cases, for what
holds of a step itself (its choice, its operation and what it changes) and not only of the state after it."""
import os
import re

TOP = os.path.dirname(os.path.dirname(os.path.abspath(__file__)))
crates = lambda name, file: os.path.join(TOP, "crates", name, "proofs", file)
OVER = "(P : Layout → S.State → ℕ → Choice → Section → Phase → ℕ → Op → Type 0)"
t = open(crates("smc_agreement", "EachKind.antt")).read()
inner = r"[^()]*"
for _ in range(5):
    inner = rf"(?:[^()]|\({inner}\))*"
t = re.sub(rf"P sh \(did sh st p ({inner}?)\)(?=[) \n])", r"P sh st p \1", t)
assert "(did " not in t
t = t[:t.index("\n-- a part that each kind of step keeps is kept")]
for old, new in (
        ("-- A law that each kind of step keeps is kept by each step that a pass offers. Written by tools/dispatch.py.", "-- What holds of each kind of step holds of each step that a pass offers. Written by tools/dispatch_steps.py."),
        ("record EachKind (H P : Layout → S.State → Type 0) : Type 0", f"record EachStep (H : Layout → S.State → Type 0) {OVER} : Type 0"),
        ("module _ (H P : Layout → S.State → Type 0) (each : EachKind H P)", f"module _ (H : Layout → S.State → Type 0) {OVER} (each : EachStep H P)"),
        ("-- each kind of step keeps the law, where this is known beside what is shut", "-- what holds of each kind of step, where this is known beside what is shut"),
        ("  -- the law holds after the offered step", "  -- it holds of the offered step"),
        ("  -- a law that each kind of step keeps is kept by each step that a pass offers\n  pub each_step", "  -- what holds of each kind of step holds of each step that a pass offers\n  pub each_offered"),
        ("→ P sh (state_after sh st p choice told o.op (seen o.op st.memory))", "→ P sh st p choice (st.stands p).section (st.stands p).phase told o.op"),
        ("  each_step choice o told offers =", "  each_offered choice o told offers ="),
        ("use Rattle.smc_agreement.proofs.Whole.{Shut, shut, calls, did}", "use Rattle.smc_agreement.proofs.Whole.{Shut, shut, calls}\nuse Rattle.smc_core.specs.declared.op.Op.{Op}")):
    assert old in t, old
    t = t.replace(old, new)
open(crates("smc_inv_scan", "EachStep.antt"), "w").write(t)
