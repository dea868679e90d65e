# The facts of the part "uses", and what its goals are told by default. Read by facts.py.
fact("uses", "u_slot", "c' s' is", "c' s'", "dir entry")
fact("uses", "u_named", "i c' s' li is", "i c' s' li", "back")
fact("uses", "u_moves", "i c' s' t' a' e' li is nm inc", "i c' s' t' a' e' li", "dir back entry")
BC.update({c["name"]: c for c in C})
exec(open(__file__.replace("facts.py", "special_uses.py")).read())
