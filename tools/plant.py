#!/usr/bin/env python3
"""Plants bugs in a crate, one at a time, and says which the check does not refuse.

    tools/plant.py CRATE [--count N] [--seed N] [--file src/lib.rt] [--function NAME] [--list]

Run it at the repository's top. It works on a copy in a temporary folder. Each bug is one small edit inside a function's body in
src/; comments, texts, clauses and ghost lines are left alone. The functions take turns, and so do the kinds of bug in each. A
line for each: refused, SURVIVED (the contract says too little, or the edit changes nothing: judge it), or no build, which is not
counted.
"""
import argparse, os, random, re, shutil, subprocess, sys, tempfile

arguments = argparse.ArgumentParser()
arguments.add_argument("crate")
arguments.add_argument("--count", type=int, default=15)
arguments.add_argument("--seed", type=int, default=1)
arguments.add_argument("--file")
arguments.add_argument("--function")
arguments.add_argument("--list", action="store_true")
asked = arguments.parse_args()
if not os.path.isfile("crates.txt") or not os.path.isdir(os.path.join("crates", asked.crate)):
    sys.exit("run it at the repository's top, with the name of a crate")

OPEN, CLOSE = "([{", ")]}"
SWAPS = [(r" < ", " <= "), (r" <= ", " < "), (r" > ", " >= "), (r" >= ", " > "), (r" == ", " != "), (r" != ", " == "),
         (r" && (?!let)", " || "), (r" \|\| ", " && "), (r" \+ ", " - "), (r" - ", " + "), (r" \* ", " + "), (r" % ", " / "),
         (r" \^ ", " | "), (r"\btrue\b", "false"), (r"\bfalse\b", "true"), (r"\.min\(", ".max("), (r"\.max\(", ".min("),
         (r"\.\.=", ".."), (r"!(?=[a-z])", ""), (r"\bis_some\b", "is_none"), (r"\bis_none\b", "is_some"),
         (r"\bSome\(\w+\)(?! (?:=>|=))", "None"), (r"\bOk\((?!0\))\w+\)(?! =>)", "Ok(0)"), (r"\bErr\(Refusal::\w+\)", "Ok(0)"),
         (r"\[(?:i|place|number)\]", "[0]"), (r"\((?:i|place|number|identifier)(?=[,)])", "(0")]
NUMBER = r"(?<![\w.])(0x[0-9a-fA-F_]+|[0-9][0-9_]*)(?![\w.]|\.\w)|(?<=\.\.=)[0-9]+"


def masked(text):
    """The text with comments, texts and ghost lines blanked; each character keeps its place."""
    out = re.sub(r"//[^\n]*|\"(?:\\.|[^\"\\])*\"", lambda m: re.sub(r"[^\n]", " ", m.group(0)), text)
    return "".join(re.sub(r"[^\n{}()\[\]]", " ", line) if re.match(r"\s*(ghost|use)\b", line) else line
                   for line in out.splitlines(True))


def closing(mask, start):
    """The place of the bracket that closes the one at `start`."""
    depth = 0
    for place in range(start, len(mask)):
        depth += (mask[place] in OPEN) - (mask[place] in CLOSE)
        if depth == 0:
            return place
    raise ValueError("a bracket is not closed")


def bodies(mask):
    """Name, start and end of each function's body; the clauses before it are passed over."""
    for function in re.finditer(r"\bfn\s+([a-z_0-9]+)", mask):
        place = closing(mask, mask.index("(", function.end())) + 1
        while True:
            found = re.compile(r"\b(requires|ensures|where)\b|[\[{;]").search(mask, place)
            if found.group(0) == ";":
                break
            if found.group(0) == "{":
                yield function.group(1), found.start() + 1, closing(mask, found.start())
                break
            if found.group(0) == "[":
                place = closing(mask, found.start()) + 1
            else:
                place = found.end() if found.group(1) == "where" else closing(mask, mask.index("{", found.end())) + 1


def statements(mask, start, end):
    """Start and end of each statement of a body that does more than name a value."""
    for found in re.finditer(r"(?<=[;{}])\s*(?=(?:[*a-z_][\w.\[\]*]* [-+|&^]?= |let _\w* =|[a-z_.]+\(|for |if )[^;]*;?)", mask[start - 1:end]):
        first = start - 1 + found.end()
        if re.match(r"for |if ", mask[first:]):
            last = closing(mask, mask.index("{", first)) + 1
        else:
            last = mask.find(";", first) + 1
        if first < last <= end and "return" not in mask[first:last]:
            yield first, last


def edits(text):
    """Function, kind, start, end and new text of each bug."""
    mask = masked(text)
    refusals = sorted(set(re.findall(r"Refusal::([A-Z]\w+)", mask)))
    for name, start, end in bodies(mask):
        body = mask[start:end]
        for kind, (pattern, new) in enumerate(SWAPS):
            for found in re.finditer(pattern, body):
                yield name, kind, start + found.start(), start + found.end(), new
        for found in re.finditer(NUMBER, body):
            value = int(found.group(0).replace("_", ""), 0)
            for other in {value + 1, max(value - 1, 0)} - {value}:
                yield name, "number", start + found.start(), start + found.end(), str(other)
        for found in re.finditer(r"\bif (?!let\b)([^{]*[^{ ]) \{", body):
            if " let " not in found.group(1):
                for new in (f"!({found.group(1)})", "true", "false"):
                    yield name, "test", start + found.start(1), start + found.end(1), new
        for found in re.finditer(r"Refusal::([A-Z]\w+)", body):
            other = refusals[(refusals.index(found.group(1)) + 1) % len(refusals)]
            yield name, "refusal", start + found.start(1), start + found.end(1), other
        for found in re.finditer(r"\(([a-z_.0-9]+), ([a-z_.0-9]+)(?=[,)])", body):
            yield name, "order", start + found.start(), start + found.end(), f"({found.group(2)}, {found.group(1)}"
        for first, last in statements(mask, start, end):
            yield name, "left out", first, last, ""


def shown(text, start, end, new):
    """The lines that an edit touches, before and after it, each on one line."""
    first, last = text.rfind("\n", 0, start) + 1, text.find("\n", end)
    one = lambda part: re.sub(r"\s+", " ", part).strip()
    return one(text[first:last]) + "  =>  " + (one(text[first:start] + new + text[end:last]) or "(left out)")


def taken_in_turn(bugs):
    """The bugs, one function after the other, and in each function one kind after the other."""
    chance = random.Random(asked.seed)
    groups = {}
    for bug in bugs:
        groups.setdefault((bug[0], bug[1]), {}).setdefault(bug[2], []).append(bug)
    rows = []
    for kinds in groups.values():
        row = []
        for group in kinds.values():
            chance.shuffle(group)
            row += [(place, chance.random(), bug) for place, bug in enumerate(group)]
        rows.append([bug for _, _, bug in sorted(row, key=lambda x: x[:2])])
    chance.shuffle(rows)
    return [row[turn] for turn in range(max(map(len, rows), default=0)) for row in rows if turn < len(row)]


def check(folder):
    """What the check says of the crate in this folder."""
    done = subprocess.run(["rt", "check"], cwd=folder, stdout=subprocess.PIPE, stderr=subprocess.STDOUT, text=True)
    said = re.search(r"^logic=(not-)?proved", done.stdout, re.M)
    return "no build" if not said else "refused" if said.group(1) else "SURVIVED"


def main():
    source = os.path.join("crates", asked.crate, "src")
    bugs = []
    for folder, _, files in sorted(os.walk(source)):
        for file in sorted(files):
            path = os.path.relpath(os.path.join(folder, file), os.path.join("crates", asked.crate))
            if file.endswith(".rt") and (not asked.file or asked.file == path):
                text = open(os.path.join(folder, file), encoding="utf-8").read()
                bugs += [(path, *edit, text) for edit in edits(text) if not asked.function or edit[0] == asked.function]
    bugs = taken_in_turn(bugs)
    label = lambda bug: f"{bug[0]} {bug[1]}: {shown(bug[6], bug[3], bug[4], bug[5])}"
    if asked.list:
        print("\n".join(map(label, bugs)))
        return
    with tempfile.TemporaryDirectory(prefix="plant-") as folder:
        copy = os.path.join(folder, "repository")
        shutil.copytree(".", copy, symlinks=True, ignore=shutil.ignore_patterns(".git", "target"))
        crate = os.path.join(copy, "crates", asked.crate)
        if check(crate) != "SURVIVED":
            sys.exit("the crate as it stands is not proved")
        planted = survived = 0
        for bug in bugs:
            if planted == asked.count:
                break
            path, _, _, start, end, new, text = bug
            target = os.path.join(crate, path)
            open(target, "w", encoding="utf-8").write(text[:start] + new + text[end:])
            verdict = check(crate)
            open(target, "w", encoding="utf-8").write(text)
            print(f"{verdict:9} {label(bug)}", flush=True)
            planted += verdict != "no build"
            survived += verdict == "SURVIVED"
        print(f"{survived} of {planted} survived")


main()
