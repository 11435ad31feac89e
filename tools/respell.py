#!/usr/bin/env python3
"""Respells the repository's own definitions and lemmas: words in snake case, and the crate `unicode`, whose
name a library of the kit has, as `unicode_text`.

usage: tools/respell.py [--list]      at the top, once, after the kit's own script and before any edit by hand

A name is respelled where it is defined in specs/ or proofs/: `firstRow` and `first-row` become `first_row`.
Types and facts keep their capitals. Names of src/, comments, strings and the names of goals stay. It ends with
status 1, and writes nothing, where two names would fall together. With --list it only prints old and new names.
"""
import collections
import pathlib
import re
import sys

ROOT = pathlib.Path(__file__).resolve().parent.parent
OLD_CRATE, NEW_CRATE = "unicode", "unicode_text"

DEFINITION = re.compile(
    r"^\s*(?:(?:abbrev|unfoldable|pub|\|) )*(?:(?:record|data) )?(?P<name>[A-Za-z_][\w'-]*)(?:\s+[({].*)?\s*:\s(?P<type>.*)$"
)
WORD = re.compile(r"[A-Za-z_][\w'-]*")
PRIME = "\u2032"


def respelled(name):
    """The name in snake case, or the name itself where it is a type's, a fact's or in snake case already."""
    if name[0].isupper():
        return name
    name = re.sub(r"(?<=[a-z0-9])([A-Z])", lambda m: "_" + m.group(1).lower(), name)
    return name.replace("-", "_").replace(PRIME, "'")


def own_files(suffix, *folders):
    for folder in folders:
        for path in sorted(ROOT.glob(f"crates/*/{folder}/**/*{suffix}")):
            if "out" not in path.parts:
                yield path


def code_of(line, comment):
    """The line's code and the comment behind it."""
    at = line.find(comment)
    return (line, "") if at < 0 else (line[:at], line[at:])


def collect():
    """Every name that specs/ and proofs/ define or give by `as`, and every other word that stands in a proof file."""
    defined, used = collections.defaultdict(set), collections.Counter()
    for path in own_files(".antt", "specs", "proofs"):
        for line in path.read_text().splitlines():
            code, _ = code_of(line, "--")
            found = DEFINITION.match(code)
            if found and not found.group("type").startswith("goal."):
                defined[found.group("name")].add(path)
            used.update(WORD.findall(re.sub(r"Rattle(\.[\w'+-]+)+", "", code)))
    for path in [*own_files(".antt", "specs", "proofs"), *own_files(".rt", "src")]:
        for line in path.read_text().splitlines():
            if re.match(r"\s*(?:pub )?(?:ghost )?use Rattle\.", line):
                for name in re.findall(r" as ([A-Za-z_][\w'-]*)", line):
                    defined[name].add(path)
    return defined, used


def turned(code, names):
    """The code with each of the names respelled; text in quotes stays, and the name of a goal or of a step in a path."""

    def one(found):
        name, before = found.group(0), code[: found.start()]
        if before.count('"') % 2 or before.endswith("goal.") or re.search(r"(?<![\w'-])[a-z](\.[\w'-]+)*\.$", before) and not name in FIELDS:
            return name
        return names.get(name, name)

    return WORD.sub(one, code)


# Fields of the repository's own records: respelled behind a dot too.
FIELDS = set()


def fields():
    for path in own_files(".antt", "specs", "proofs"):
        inside = False
        for line in path.read_text().splitlines():
            if re.match(r"\s*(?:pub )?record ", line):
                inside = True
            elif line and not line[0].isspace():
                inside = False
            elif inside and (found := DEFINITION.match(code_of(line, "--")[0])):
                FIELDS.add(found.group("name"))


def turn_crate(text):
    """The text with the crate's new name in paths."""
    text = re.sub(rf"\bRattle\.{OLD_CRATE}\.", f"Rattle.{NEW_CRATE}.", text)
    return re.sub(rf"(?<![\w.:]){OLD_CRATE}::", f"{NEW_CRATE}::", text)


def turn_file(path, names, comment):
    lines = path.read_text().split("\n")
    for at, line in enumerate(lines):
        code, rest = code_of(line, comment)
        lines[at] = turn_crate(turned(code, names)) + rest
    path.write_text("\n".join(lines))


def move_crate():
    (ROOT / "crates" / OLD_CRATE).rename(ROOT / "crates" / NEW_CRATE)
    (ROOT / "planted" / f"{OLD_CRATE}.txt").rename(ROOT / "planted" / f"{NEW_CRATE}.txt")
    listed = ROOT / "crates.txt"
    lines = listed.read_text().split("\n")
    for at, line in enumerate(lines):
        if not line.startswith("#"):
            lines[at] = re.sub(rf"(?<!\w){OLD_CRATE}(?!\w)", NEW_CRATE, line)
    listed.write_text("\n".join(lines))


def main():
    defined, used = collect()
    fields()
    names = {name: respelled(name) for name in defined if respelled(name) != name}
    for old, new in names.items():
        # a lemma that would have its definition's name
        if "-" in old and (new in defined or new in used or any(n == new and o != old for o, n in names.items())):
            names[old] = new + "_lem"
    fall = collections.defaultdict(set)
    for old, new in names.items():
        fall[new].add(old)
        if new in defined or new in used:
            fall[new].add(new)
    clashes = {new: olds for new, olds in fall.items() if len(olds) > 1}
    if "--list" in sys.argv:
        for old in sorted(names):
            print(old, names[old])
    for new, olds in sorted(clashes.items()):
        places = sorted({str(p.relative_to(ROOT / "crates")) for o in olds for p in defined.get(o, ())})
        print("falls together:", new, sorted(olds), places)
    if clashes or "--list" in sys.argv:
        return bool(clashes)
    for path in own_files(".antt", "specs", "proofs"):
        turn_file(path, names, "--")
    for path in own_files(".rt", "src"):
        turn_file(path, names, "//")
    for path in [*own_files(".edit", "must-fail"), *(ROOT / "planted").glob("*.txt"), *(ROOT / "misuse").glob("*.edit")]:
        turn_file(path, names, "\0")
    move_crate()
    print(f"{len(names)} names respelled; crate {OLD_CRATE} is {NEW_CRATE}")
    return False


if __name__ == "__main__":
    sys.exit(main())
