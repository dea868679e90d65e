# The facts of the part "scans", and what its goals are told by default. Read by facts.py.
fact("scans", "s_apart", "i li", "i li", "")
fact("scans", "s_fresh", "i k' b' li is", "i k' b' li", "")
fact("scans", "s_within", "i k' b' li is", "i k' b' li", "")
fact("scans", "s_place", "i k' c' s' li is", "i k' c' s' li", "")
fact("scans", "s_over", "i k' li is", "i k' li", "")
fact("scans", "s_dir", "i c' s' li is", "i c' s' li", "dir")
fact("scans", "s_back", "i c' s' a' e' d' li is", "i c' s' a' e' d' li", "back")
fact("scans", "s_home", "i c' s' a' e' d' li is", "i c' s' a' e' d' li", "")
fact("scans", "s_frozen", "i k' c' a' e' s' b' r' li fz rd is of lt", "i k' c' a' e' s' b' r' li", "entry round fwd")
fact("scans", "s_locked", "i k' c' a' e' s' b' li lk is of", "i k' c' a' e' s' b' li", "entry fwd")
BC.update({c["name"]: c for c in C})


def told_scans(k, c):
    """what a goal of this part is told: what the call knows of memory only where the fact reads what it writes"""
    out = []
    if k["writes"] in c["reads"]:
        out += [t for t in OWN.get(k["name"], []) if "(copies h)" not in t]
    if k["sec"] != "Outside":
        out += [at("calls p in_n"), SEC]
    return out


exec(open(__file__.replace("facts.py", "special_scans.py")).read())
