#!/usr/bin/env python3
"""Brings the repository's own definitions and lemmas to the library's spelling: words in snake case, types and facts in camel
case, a prime as an apostrophe. Run once at the top of the repository, after the kit's port.py. With --dry it only says what it
would do.

- A definition, constructor, field or alias with capitals inside (readList) becomes read_list.
- A fact with dashes (Came-fairly) becomes CameFairly.
- A lemma's dashes become underscores, but where they join names of definitions alone (at-ids), or where the new name would
  fall together with another one: there the dashes stay.
- Nothing in strings, comments of src/, or names of functions, types and fields of src/ is touched.
"""
import glob
import os
import re
import sys

DRY = "--dry" in sys.argv
ANSWERS = ("Answers.antt", "Invariants.antt", "Proof.antt")
TOKEN = re.compile(r"[A-Za-z_][\w'′]*(?:-[\w'′]+)*")
# names of std that dashes join with ours
STD = {"length", "take", "drop", "map", "cond", "set", "cons", "append", "some", "none", "true", "false"}

antt = sorted(glob.glob("crates/*/specs/**/*.antt", recursive=True) + glob.glob("crates/*/proofs/**/*.antt", recursive=True))
rts = sorted(glob.glob("crates/*/src/**/*.rt", recursive=True))
edits = sorted(glob.glob("crates/*/must-fail/*.edit") + glob.glob(".ci/misuse/*.edit"))
docs = sorted(glob.glob("docs/*.md") + glob.glob("README.md"))

texts = {p: open(p, encoding="utf-8").read() for p in antt + rts + edits + docs}


def code(line):
    """A line of antt without its comment."""
    return re.sub(r"(^|\s)--(\s.*)?$", "", line)


specs, lemmas, imported = set(), set(), set()
every = set()
DEF = re.compile(r"^\s*(?:abbrev\s+|unfoldable\s+)?(?:pub\s+)?(?:data\s+|record\s+)?(" + TOKEN.pattern + r")\s*(?::|\(|\{)")
# constructors that are declared together
SEVERAL = re.compile(r"^\s+((?:[a-z]\w* )+[a-z]\w*) : ")
for p in antt:
    own = os.path.basename(p) not in ANSWERS
    for line in texts[p].splitlines():
        c = code(line)
        every.update(TOKEN.findall(c))
        if re.match(r"\s*use\s+(Rattle\.std|borrow|lib|native|mathlib)\b", c):
            imported.update(TOKEN.findall(c.split("{", 1)[1] if "{" in c else ""))
        for several in SEVERAL.finditer(c):
            (specs if "/specs/" in p else lemmas).update(several.group(1).split())
        m = DEF.match(c)
        if not m or re.match(r"\s*(use|let|in|where|module|unfolding|open)\b", c):
            continue
        if own:
            (specs if "/specs/" in p else lemmas).add(m.group(1))
    for m in re.finditer(r"\bas ([A-Za-z_][\w'′-]*)", texts[p]):
        lemmas.add(m.group(1))
for p in rts:
    for line in texts[p].splitlines():
        if line.startswith("ghost use"):
            every.update(TOKEN.findall(line))
            for m in re.finditer(r"\bas ([A-Za-z_][\w'′-]*)", line):
                specs.add(m.group(1))
            if re.match(r"ghost use Rattle\.std|ghost use borrow", line):
                imported.update(TOKEN.findall(line.split("{", 1)[1] if "{" in line else ""))


def snake(n):
    return re.sub(r"(?<=[a-z0-9])([A-Z])", lambda m: "_" + m.group(1).lower(), n).replace("′", "'")


# names that would fall together with another one
OTHER = {"Reads-back": "ListsReadBack"}
mapping = {n: new for n, new in OTHER.items() if n in specs}
for n in sorted(specs | lemmas):
    if n in imported or n in ("Answers", "Lib"):
        continue
    if n[0].isupper():
        if "-" in n:
            if n in OTHER:
                continue
            mapping[n] = "".join(w[:1].upper() + w[1:] for w in n.split("-")).replace("′", "'")
        elif "′" in n:
            mapping[n] = n.replace("′", "'")
    elif "-" not in n:
        if snake(n) != n:
            mapping[n] = snake(n)
names = {mapping.get(n, n) for n in specs} | STD
for n in sorted(lemmas | specs):
    if "-" not in n or n[0].isupper() or n in imported:
        continue
    parts = [snake(w) for w in n.split("-")]
    out = ("-" if n not in specs and all(w in names for w in parts) else "_").join(parts)
    taken = (every - {n}) | set(mapping.values()) | imported
    if out in taken:
        out = "-".join(parts)
    if out != n:
        mapping[n] = out
clash = {}
for a, b in mapping.items():
    clash.setdefault(b, []).append(a)
for b, olds in sorted(clash.items()):
    if len(olds) > 1 or (b in every and b not in mapping):
        print("falls together:", olds, "->", b, "(stands already)" if b in every else "")

fns = set()
for p in rts:
    fns.update(re.findall(r"\bfn (\w+)", texts[p]))
print("names of functions of src, too:", sorted(b for b in mapping.values() if b in fns))
for a, b in sorted(mapping.items()):
    print("respelled:", a, "->", b)


def turn_tokens(text, keep=frozenset()):
    out, at = [], 0
    for m in TOKEN.finditer(text):
        w = m.group(0)
        new = mapping.get(w)
        if new is None or w in keep:
            continue
        # a lemma's name after a dot is a field that Rattle made
        if "-" in w and m.start() and text[m.start() - 1] == "." and not w[0].isupper():
            if not re.search(r"proofs\.\w+\.$", text[: m.start()]):
                continue
        out.append(text[at : m.start()])
        out.append(new)
        at = m.end()
    return "".join(out) + text[at:]


def turn_rt(text):
    out = []
    for line in text.split("\n"):
        s = line.lstrip()
        if s.startswith("//"):
            out.append(line)
        elif s.startswith(("ghost ", "requires", "ensures", "law ")) or re.match(r"[λ(⌜]", s):
            out.append(turn_tokens(line))
        elif re.search(r"\b(requires|ensures)\b.*\{", s):
            out.append(turn_tokens(line))
        else:
            out.append(line)
    return "\n".join(out)


for p, t in texts.items():
    if p in rts:
        new = turn_rt(t)
    elif p in antt:
        keep = set()
        if os.path.basename(p) in ANSWERS:
            keep = {m.group(1) for m in re.finditer(r"^(?:abbrev )?(?:pub )?(" + TOKEN.pattern + r") :\s*goal\.", t, re.M)}
        new = turn_tokens(t, keep).replace("′", "'")
    elif p in edits:
        new = turn_tokens(t) if re.search(r"^(old|new): .*(ghost|ensures|requires)", t, re.M) else t
    else:
        new = re.sub(r"`([^`\n]+)`", lambda m: "`" + turn_tokens(m.group(1)) + "`", t)
    if new != t and not DRY:
        open(p, "w", encoding="utf-8").write(new)
