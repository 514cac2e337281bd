#!/usr/bin/env python3
"""Respells this repository's own definitions, lemmas, fields and constructors as today's Rattle spells them: words in
snake case, types in camel case. Run once, at the top, right after the kit's port.py; `--list` prints old and new names
and writes nothing.

Of the text of specs/, proofs/ and src/ it changes names that specs/ and proofs/ declare, and nothing in strings. Names
of functions, types and exports of src/ stay. Where two names would fall together, the lemma's gets `_lem`.
"""
import collections
import os
import re
import sys

TOKEN = re.compile(r"[^\s(){}\[\]⟨⟩,;.:\"`|@]+")
DECLARED = re.compile(
    r"\s*(?:(?:pub|abbrev|unfoldable)\s+)*(?:(data|record)\s+)?([^\s(){}:]+)\s*(?:\([^)]*\)\s*|\{[^}]*\}\s*)*:(?!:)")
# a type in lower case, a value in upper case, a field named as a definition that its record cites, and variables
BY_HAND = {"performs": "PerformedHere", "AsEnded": "as_ended", "kind-of": "kind_agrees", "string-of": "its_string"}
# a variable that port.py left with the name that a definition gets
IN_FILE = {"crates/table/proofs/CheckLaws.antt": {"is_right": "test_is"}}


def files(top, ends):
    for crate in sorted(os.listdir(top)):
        for part in ("specs", "proofs", "src"):
            for folder, dirs, names in os.walk(os.path.join(top, crate, part)):
                dirs.sort()
                for name in sorted(names):
                    if name.endswith(ends):
                        yield os.path.join(folder, name)


def pieces(line, comment):
    """The line as (kind, text): code, string, comment."""
    out, start, i = [], 0, 0
    while i < len(line):
        if line.startswith(comment, i) and (comment == "//" or i == 0 or line[i - 1].isspace()):
            out.append(("code", line[start:i]))
            out.append(("comment", line[i:]))
            return out
        if line[i] == '"':
            out.append(("code", line[start:i]))
            end = i + 1
            while end < len(line) and line[end] != '"':
                end += 2 if line[end] == "\\" and comment == "//" else 1
            out.append(("string", line[i:end + 1]))
            start = i = end + 1
            continue
        i += 1
    out.append(("code", line[start:]))
    return out


def snake(name):
    name = re.sub(r"([a-z0-9'₀-₉])([A-Z])", lambda m: m.group(1) + "_" + m.group(2).lower(), name)
    return name.replace("-", "_")


def is_camel(name):
    return name[0].islower() and re.search(r"[a-z0-9'₀-₉][A-Z]", name) is not None


def names(top):
    """The names declared outside the proofs of functions, those of them that are fields, and every word in use."""
    crates = "|".join(sorted(os.listdir(top)))
    declared, fields, words = {}, set(), set()
    given, used = set(), {}
    for path in files(top, (".antt", ".rt")):
        whole = path.endswith("Proof.antt")
        in_record = False
        with open(path, encoding="utf-8") as f:
            for line in f:
                use = re.match(r"\s*(?:pub |ghost )*use ([^{]*)", line)
                if use and not re.match(r"Rattle\.(" + crates + r")\.", use.group(1)):
                    given.update(TOKEN.findall(line))
                for kind, text in pieces(line.rstrip("\n"), "//" if path.endswith(".rt") else "--"):
                    if kind == "code":
                        words.update(TOKEN.findall(text))
                        for word in TOKEN.findall(text):
                            dashed = "-" in word and path.endswith(".antt") and not whole and word[0].islower()
                            if dashed or is_camel(word) and "b'" not in word:
                                used.setdefault(word, path)
                if whole or path.endswith(".rt") or line.lstrip().startswith(("--", "use ", "pub use ", "let ")):
                    continue
                if re.match(r"\s*(pub )?(record|data)\b.*\bwhere\s*$", line):
                    in_record = " record " in " " + line
                elif not line.strip():
                    in_record = False
                m = DECLARED.match(line)
                if m and m.group(2) not in ("record", "module", "|", "→", "_"):
                    declared.setdefault(m.group(2), path)
                    if in_record and not m.group(1):
                        fields.add(m.group(2))
    # names of a file's own: what it imports under another name, and variables
    for word, path in used.items():
        if word not in given:
            declared.setdefault(word, path)
    return declared, fields, words


def mapping(top):
    declared, fields, words = names(top)
    new = {}
    for name in declared:
        if name in BY_HAND:
            new[name] = BY_HAND[name]
        elif name[0].islower() and (is_camel(name) or "-" in name):
            new[name] = snake(name)
    by_new = collections.defaultdict(list)
    for old, fresh in new.items():
        by_new[fresh].append(old)
    for fresh, olds in by_new.items():
        for old in olds:
            taken = fresh in words or len(olds) > 1
            if "-" in old and taken and old not in fields:
                new[old] = fresh + "_lem"
            elif not "-" in old and fresh in declared and fresh not in new:
                new[fresh] = fresh + "_lem"
    return new, fields, declared


def respell(text, kind, new, fields, local, own, in_source, proof):
    def put(m):
        word = m.group(0)
        if word in own and text[m.start() - 1:m.start()] != ".":
            return own[word]
        if word in local or word not in new or (in_source and not (is_camel(word) or "-" in word)):
            return word
        if kind == "comment":
            return new[word] if is_camel(word) else word
        dotted = m.start() and text[m.start() - 1] == "."
        if dotted and not is_camel(word) and (word not in fields or word in BY_HAND and proof):
            return word
        return new[word]

    return TOKEN.sub(put, text)


def main(argv):
    top = "crates"
    if not os.path.isdir(top) or argv not in ([], ["--list"]):
        print(__doc__, file=sys.stderr)
        return 2
    new, fields, declared = mapping(top)
    if argv:
        for old in sorted(new):
            print(old, new[old], os.path.relpath(declared.get(old, "?"), top))
        return 0
    for path in files(top, (".antt", ".rt")):
        with open(path, encoding="utf-8") as f:
            lines = f.read().split("\n")
        local = set()
        if path.endswith("Proof.antt"):
            local = {m.group(2) for m in map(DECLARED.match, lines) if m and "-" in m.group(2)}
        own = IN_FILE.get(path, {})
        comment = "//" if path.endswith(".rt") else "--"
        source, proof = comment == "//", path.endswith("Proof.antt")

        def turned(kind, text):
            return text if kind == "string" else respell(text, kind, new, fields, local, own, source, proof)

        out = ["".join(turned(k, t) for k, t in pieces(line, comment)) for line in lines]
        if out != lines:
            with open(path, "w", encoding="utf-8") as f:
                f.write("\n".join(out))
    return 0


if __name__ == "__main__":
    raise SystemExit(main(sys.argv[1:]))
