#!/usr/bin/env python3
"""In the answers and invariants of proofs/, gives the names that Rattle makes of the code's own names the code's spelling:
returns-then-is-some becomes returns-then-is_some where src/ has is_some. Run once at the top of the repository."""
import glob
import re

TOKEN = re.compile(r"[A-Za-z_][\w']*(?:-[\w']+)+")


def joined(word, known):
    parts = word.split("-")
    out, i = [], 0
    while i < len(parts):
        for j in range(len(parts), i + 1, -1):
            if "_".join(parts[i:j]) in known:
                out.append("_".join(parts[i:j]))
                i = j
                break
        else:
            out.append(parts[i])
            i += 1
    return "-".join(out)


for crate in sorted(glob.glob("crates/*")):
    known = set()
    for p in glob.glob(crate + "/src/**/*.rt", recursive=True):
        known.update(re.findall(r"\b[a-z]\w*_\w+\b", open(p, encoding="utf-8").read()))
    files = [p for n in ("Answers", "Invariants") for p in glob.glob(f"{crate}/proofs/**/{n}.antt", recursive=True)]
    for p in files:
        t = open(p, encoding="utf-8").read()
        mine = {m.group(1) for m in re.finditer(r"^(?:abbrev )?(?:pub )?([\w'-]+) :\s*goal\.", t, re.M)}
        goals = set()
        for m in re.finditer(r"^use Rattle\.\w+\.proofs\.[\w.'-]*(?:Goals|Given)\.\{([^}]*)\}", t, re.M):
            goals.update(TOKEN.findall(m.group(1)))

        def turn(m):
            w = m.group(0)
            before = t[: m.start()]
            if w in mine or w in goals or before.endswith("."):
                return joined(w, known)
            return w

        new = TOKEN.sub(turn, t)
        if new != t:
            open(p, "w", encoding="utf-8").write(new)
