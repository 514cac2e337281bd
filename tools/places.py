#!/usr/bin/env python3
"""places.py [COMMIT] [-v]: counts, in the Rattle sources of crates/*/src, the places of each point of
docs/DESIGN-PASS.md; at COMMIT, or in the work tree. With -v it lists them. A place is what a rule below finds: a line to
look at, not a verdict."""
import collections
import glob
import re
import subprocess
import sys

words = [it for it in sys.argv[1:] if it != "-v"]
shown = "-v" in sys.argv[1:]


def sources():
    if not words:
        return {p: open(p, encoding="utf-8").read() for p in sorted(glob.glob("crates/*/src/*.rt"))}
    git = lambda *args: subprocess.run(["git", *args], check=True, capture_output=True, text=True).stdout
    names = git("ls-tree", "-r", "--name-only", words[0], "crates").split()
    return {p: git("show", f"{words[0]}:{p}") for p in names if re.fullmatch(r"crates/\w+/src/\w+\.rt", p)}


files = sources()
code = {p: re.sub(r"//.*", "", text) for p, text in files.items()}
found = collections.defaultdict(list)


def note(point, path, at, what):
    line = code[path].count("\n", 0, at) + 1
    found[point].append(f"{path[7:].replace('/src', '')}:{line}: {' '.join(what.split())[:100]}")


# 1. Enums with a variant that says that there is nothing, or that it is refused; numbers that name kinds or refusals; and
# a flag that says whether the field beside it counts.
NOTHING = r"^\s*(Absent|None|Nothing|Not|Nowhere|Other|Bad|Cut|Wrong|Refused|Stops|Fails?|Accepted|Over|Full|Ended)\b"
for path, text in code.items():
    for it in re.finditer(r"enum (\w+)(?:<.*?>)? \{(.*?)^\}", text, re.S | re.M):
        if re.search(NOTHING, it[2], re.M):
            note("1 enums with a case for nothing or a refusal", path, it.start(), it[0])
    for it in re.finditer(r"^(?:pub )?const [A-Z_]+: (u8|u16|u32|usize) = \d+;", text, re.M):
        if "limits" not in path:
            note("1 constants that are numbers", path, it.start(), it[0])
    for it in re.finditer(r"\b(code|kind|mark|stage|tag|detail): (u8|u32|usize)\b|\((u32)\)", text):
        note("1 numbers for kinds and refusals", path, it.start(), it[0])
    for it in re.finditer(r"\b(counted|written|ended): bool\b", text):
        note("1 flags beside a value", path, it.start(), it[0])

# 2. Functions of one name, and of one body but for names and numbers.
bodies = collections.defaultdict(list)
names = collections.defaultdict(list)
for path, text in code.items():
    for it in re.finditer(r"^( *)(?:pub )?(?:extern \"C\" )?fn (\w+)(.*?)\n\1\{\n(.*?)\n\1\}", text, re.S | re.M):
        names[it[2]].append((path, it.start()))
        shape = re.sub(r"\w+", "x", re.sub(r"\s+", " ", it[4]))
        bodies[shape].append((path, it.start(), it[2]))
for name, them in names.items():
    if len(them) > 1:
        for path, at in them:
            note("2 functions that share a name", path, at, name)
for shape, them in bodies.items():
    if len(them) > 1 and len(shape) > 20:
        for path, at, name in them:
            note("2 functions that share a shape", path, at, name)

# 3. Loops that are no `for`.
for path, text in code.items():
    for it in re.finditer(r"^ *(while|loop)\b.*", text, re.M):
        note("3 while and loop", path, it.start(), it[0])
    for it in re.finditer(r"^ *\w+ [+-]= 1;", text, re.M):
        note("3 counters moved by one", path, it.start(), it[0])

# 4. Truth values, extremes, widenings and copies by hand.
for path, text in code.items():
    for it in re.finditer(r"=> (true|false),|\{ (true|false) \}|^ *(true|false)$|return (true|false);", text, re.M):
        note("4 truth values written out", path, it.start(), it[0])
    for it in re.finditer(r"\b(both|either|not|wide|widened|less|larger|smaller|least|farther|one_if|number_or)\(", text):
        note("4 calls of helpers that std has", path, it.start(), it[0])
    for it in re.finditer(r"^ *let \w+ = \w+\.\w+;", text, re.M):
        note("4 fields copied before use", path, it.start(), it[0])
    for it in re.finditer(r"\w+: _[,\s]", text):
        note("4 fields named to be passed over", path, it.start(), it[0])

# 5. Clauses that stand in three functions or more, and runs of three parameters that do.
clauses = collections.defaultdict(list)
runs = collections.defaultdict(list)
for path, text in code.items():
    for it in re.finditer(r"^ +requires (?:\w+ )?\{ (.*) \}$", text, re.M):
        clauses[it[1]].append((path, it.start()))
    for it in re.finditer(r"^ *(?:pub )?(?:extern \"C\" )?fn \w+(?:<.*?>)?\((.*?)\)(?: ->|\n)", text, re.S | re.M):
        them = [x.strip() for x in it[1].split(",") if x.strip()]
        for i in range(len(them) - 2):
            runs[tuple(them[i : i + 3])].append((path, it.start()))
for clause, them in clauses.items():
    if len(them) > 2:
        for path, at in them:
            note("5 clauses that stand three times", path, at, clause)
for run, them in runs.items():
    if len(them) > 2:
        for path, at in them:
            note("5 three parameters that go together", path, at, ", ".join(run))

# 6. Arrays with a length beside, parallel arrays, five fields for a list, searches by halves.
for path, text in code.items():
    for it in re.finditer(r"\w+: \[u\d+; \w+\]|marks: &(mut )?\[\w+\]", text):
        note("6 arrays of numbers", path, it.start(), it[0])
    for it in re.finditer(r"\bfifth\b", text):
        note("6 five fields for a list", path, it.start(), it[0])

# 7. A choice of a step handed over as numbers; closures that are there.
for path, text in code.items():
    for it in re.finditer(r"low: u8, high: u8, other: u8", text):
        note("7 a class of bytes as numbers", path, it.start(), it[0])
    for it in re.finditer(r"impl Fn\w*|F: Fn\w*|\|\w+\| ", text):
        note("(closures)", path, it.start(), it[0])

for point in sorted(found):
    print(f"{len(found[point]):5} {point}")
    if shown:
        print("".join(f"      {it}\n" for it in found[point]), end="")
