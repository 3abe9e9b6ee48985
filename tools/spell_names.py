#!/usr/bin/env python3
"""Spells the repository's own definitions, lemmas and fields as today's Rattle does, after its port.py: run once, at the top of the repository.

Types and modules stay in camel case; every other name that specs/ and proofs/ declare goes to snake case. A definition that would then have the
name of a function of its crate, a lemma that would have its definition's, and a name that would be one of the library's, get `_lem` behind them.
Names in src/ outside of clauses, strings, and what Rattle makes keep their spelling.

usage: spell_names.py [--list]      --list prints the names, old and new, and writes nothing
"""

import os
import re
import sys

WORD = re.compile(r'[^\s(){}.;,@"«»`:]+')
STRING = re.compile(r'"(?:\\.|[^"\\\n])*"')
DECLARED = re.compile(r"^( *)(?:(?:abbrev|unfoldable|pub) +)*([^\s(){}.;,@\"«»:]+) :(?: |$)")
CONSTRUCTOR_LIKE = re.compile(r"^[A-Z]")
SPAN = re.compile(r"`[^`\n]+`")
IN_PROSE = re.compile(r"[^\s(){}.;,@\"«»`/:|]+")


def files(*ends):
    for top in ("crates", "docs", "compare", "bindings", ".ci"):
        for folder, dirs, names in os.walk(top):
            dirs[:] = sorted(d for d in dirs if d not in ("out", "target"))
            for n in sorted(names):
                if n.endswith(ends):
                    yield os.path.join(folder, n)
    for n in ("README.md",):
        if n.endswith(ends):
            yield n


def read(path):
    with open(path, encoding="utf-8") as f:
        return f.read()


def own(path):
    """Whether a file of lemmas or of definitions, and not a function's proof: what that declares is local, or Rattle's."""
    parts = path.split("/")
    return path.endswith(".antt") and (parts[2] == "specs" or parts[2] == "proofs" and len(parts) == 4)


def snake(name):
    if CONSTRUCTOR_LIKE.match(name):
        return name
    name = re.sub(r"([a-z0-9ℕℤ])([A-Z])", r"\1_\2", name)
    name = re.sub(r"([A-Z])([A-Z][a-z])", r"\1_\2", name)
    return name.lower()


def declared():
    names = set()
    for path in files(".antt"):
        if not own(path):
            continue
        for line in read(path).splitlines():
            m = DECLARED.match(line)
            if m and m[2] not in ("?", "_", "λ"):
                names.add(m[2])
        # and what a file calls what it imports
        names.update(re.findall(r" as ([a-z]\w*[A-Z]\w*)\b", read(path)))
    return names


def imported():
    """Names of the library that the files import: a dash may join them, and none of them turns."""
    crates = set(os.listdir("crates"))
    found = set()
    for path in files(".antt"):
        for module, items in re.findall(r"^use ([^\s{]+)\.\{([^}]*)\}", read(path), re.M):
            if module.split(".")[0] == "Rattle" and module.split(".")[1] in crates:
                continue
            found |= {w.split(" as ")[0].strip().split(".")[-1] for w in items.split(",")}
    return found


def functions():
    out = {}
    for path in files(".rt"):
        crate = path.split("/")[1]
        out.setdefault(crate, set()).update(re.findall(r"\bfn (\w+)", read(path)))
    return out


def table():
    names, library = declared(), imported()
    turn = {}
    for name in sorted(names):
        if name in library:
            continue
        new = name.replace("′", "'")
        text = "_".join(snake(p) for p in new.split("-"))
        if text != name:
            turn[name] = text
    return turn, names, library


def clashes(turn, names, library):
    """Two old names that fall together where one file may see both, and names of the crate's own functions."""
    taken = {}
    for old in names:
        taken.setdefault(turn.get(old, old), []).append(old)
    fall = {new: olds for new, olds in taken.items() if len(olds) > 1}
    shadow = {new: [old] for old, new in turn.items() if new in library}
    return fall, shadow


def spell(text, turn):
    def plain(piece):
        return WORD.sub(lambda m: turn.get(m[0], m[0]), piece)

    out, at = [], 0
    for m in STRING.finditer(text):
        out += [plain(text[at : m.start()]), m[0]]
        at = m.end()
    return "".join(out + [plain(text[at:])])


def prose(text, turn):
    return SPAN.sub(lambda m: IN_PROSE.sub(lambda w: turn.get(w[0], w[0]), m[0]), text)


def main(argv):
    turn, names, library = table()
    spec_names = {}
    for path in files(".rt"):
        crate = path.split("/")[1]
        text = read(path)
        for items in re.findall(r"^\s*ghost use [^\s{]+\.\{([^}]*)\};", text, re.M):
            for item in items.split(","):
                spec_names.setdefault(item.split(" as ")[-1].strip(), set()).add(crate)
    fns = functions()
    for old, new in sorted(turn.items()):
        if any(new in fns.get(crate, ()) for crate in spec_names.get(old, ())):
            turn[old] = new + "_lem"
    fall, shadow = clashes(turn, names, library)
    for new, olds in fall.items():
        for old in olds:
            if "-" in old:
                turn[old] = new + "_lem"
    for new, olds in shadow.items():
        turn[olds[0]] = new + "_lem"
    if "--list" in argv:
        for old, new in sorted(turn.items()):
            print(f"{old}\t{new}")
        for new, olds in sorted(fall.items()):
            print(f"fall together: {new}: {' '.join(olds)}", file=sys.stderr)
        for new, olds in sorted(shadow.items()):
            print(f"a name of the library: {new}: {' '.join(olds)}", file=sys.stderr)
        return 0
    changed = 0
    for path in files(".antt", ".rt", ".edit"):
        text = read(path)
        if path.endswith(".edit"):
            new = "\n".join(spell(l, turn) if re.match(r"(old|new):", l) else l for l in text.split("\n"))
        else:
            new = spell(text, turn)
        if new != text:
            changed += 1
            with open(path, "w", encoding="utf-8") as f:
                f.write(new)
    for path in files(".md"):
        if path in ("docs/PORT.md",):
            continue
        text = read(path)
        new = prose(text, turn)
        if new != text:
            changed += 1
            with open(path, "w", encoding="utf-8") as f:
                f.write(new)
    print(f"{len(turn)} names, {changed} files")
    return 0


if __name__ == "__main__":
    raise SystemExit(main(sys.argv[1:]))
