#!/usr/bin/env python3
"""Lists the places of the eight points of docs/DESIGN-PASS.md in crates/*/src, by their text.

  tools/places.py [FOLDER]         how many places each pattern finds
  tools/places.py -l [FOLDER]      the places themselves
"""
import re
import sys
from pathlib import Path

arguments = sys.argv[1:]
listed = "-l" in arguments
folder = Path(([a for a in arguments if a != "-l"] or ["."])[0])
sources = sorted(folder.glob("crates/*/src/**/*.rt"))

# A point, what its pattern finds, and the pattern; a match may span lines.
PATTERNS = [
    (1, "an Option that holds an error", r"Option<Refusal>"),
    (1, "a field that is a flag", r"^    (?:pub(?:\(crate\))? )?\w+: bool,"),
    (1, "a number or a text that stands for a kind", r"^\s*pub const [A-Z_]+: (?:u8|&str)\b"),
    (1, "Ok or Some turned into the other by hand", r"\b(?:Ok|Some)\((\w+)\) => (?:Ok|Some)\(\1\),\s*(?:Err\(\w+\)|None) => (?:None|Err\([^\n]*\)),"),
    (1, "a default by hand", r"\b(?:Ok|Some)\((\w+)\) => \1,\s*(?:Err\(_\)|None) => [^\n]*,"),
    (1, "an error handed on by hand", r"Err\((\w+)\) => return Err\(\1\),"),
    (1, "a let-else with a fixed error", r"\belse \{\s*return (?:Err\(Refusal::\w+\)|None);\s*\}"),
    (1, "a test of a variant by hand", r"\w+(?:\([^()]*\))? => true,\s*_ => false,|Some\(_\) => (?:true|false),\s*None => (?:true|false),"),
    (3, "while", r"^\s*while (?!let)"),
    (3, "loop", r"^\s*loop \{"),
    (3, "for over numbers", r"^\s*for \w+ in [^\n]*\.\.[^\n]*\{"),
    (4, "a number inside compared", r"\.0 (?:==|!=) "),
    (4, "a function that compares by hand", r"^\s*(?:pub(?:\(crate\))? )?fn (?:same|is_same|less|compare_indexes)\b"),
    (4, "a function that converts by hand", r"^\s*(?:pub(?:\(crate\))? )?fn (?:of_\w+|\w+_of)\b[^\n]*\((?:word|answer|range|order|text)\b"),
    (4, "a function that prints by hand", r"^\s*(?:pub(?:\(crate\))? )?fn print_\w+"),
    (6, "a start and a count", r"start: u16,\s*pub count: u16,"),
    (6, "an array with a number beside", r"\[u16; 64\]|\[0; 64\]"),
    (6, "a buffer lent, and a count answered", r"buffer: &mut \[u8\][^{]*?-> (?:Result<usize|usize)"),
    (6, "a list of rows by number", r"\[\w+(?:\.\w+)* as usize\]"),
    (7, "a match on which step to run", r"match (?:self\.layer|way|question|step|(?:command\.)?verb|unit)\b"),
    (7, "an if on which step to run", r"if verb == \"\w+\""),
]

texts = {path: path.read_text() for path in sources}


def name_of(path):
    return str(path.relative_to(folder / "crates"))


def show(point, what, places):
    print(f"{point}  {len(places):4}  {what}")
    if listed:
        for place in places:
            print(f"           {place}")


def functions(text):
    """Each function's line, signature and body."""
    for found in re.finditer(r"^( *)(?:pub(?:\(crate\))? )?(?:extern \"C\" )?fn (\w+)", text, re.M):
        close = re.compile(rf"^{found[1]}\}}", re.M).search(text, found.end())
        opens = re.compile(rf"^{found[1]}\{{|\{{$", re.M).search(text, found.end())
        stops = re.compile(r";$", re.M).search(text, found.end())
        if not close or not opens or (stops and stops.start() < opens.start()):
            continue
        line = text.count("\n", 0, found.start()) + 1
        yield line, found[2], text[found.start():opens.start()], text[opens.end():close.start()]


KEYWORDS = set("if else match for in while loop let mut return break continue as ref self Self Some None Ok Err true false".split())


def shape(body):
    """A body with each name and number replaced by a mark."""
    marks = []
    for token in re.findall(r"//[^\n]*|\"[^\"]*\"|\w+|[^\w\s]", body):
        if token.startswith("//"):
            continue
        marks.append(token if token in KEYWORDS or not re.match(r"[\w\"]", token) else "x")
    return " ".join(marks)


def twins():
    """Groups of functions whose bodies have one shape and more than a call in them."""
    groups = {}
    for path, text in texts.items():
        for line, name, _, body in functions(text):
            form = shape(body)
            if len(form.split()) >= 16:
                groups.setdefault(form, []).append(f"{name_of(path)}:{line} {name}")
    return [" = ".join(group) for group in groups.values() if len(group) > 1]


def facts():
    """Facts that three or more functions of a crate require."""
    found = {}
    for path, text in texts.items():
        crate = name_of(path).split("/")[0]
        for line, name, head, _ in functions(text):
            for fact in re.findall(r"^\s*requires(?: \w+)? \{ (.*) \}$", head, re.M):
                found.setdefault((crate, fact), []).append(name)
    return [f"{crate}: {fact}: {', '.join(names)}" for (crate, fact), names in found.items() if len(names) > 2]


def together():
    """Lists of three or more parameters that three or more functions of a crate take."""
    found = {}
    for path, text in texts.items():
        crate = name_of(path).split("/")[0]
        for line, name, head, _ in functions(text):
            inside = re.search(r"\((.*?)\)(?: ->|\s*(?:where|requires|ensures)|$)", head, re.S)
            parameters = [p.strip() for p in re.split(r",(?![^<]*>)", inside[1] if inside else "") if ":" in p]
            if len(parameters) > 2:
                found.setdefault((crate, ", ".join(parameters)), []).append(name)
    return [f"{crate}: ({list_}): {', '.join(names)}" for (crate, list_), names in found.items() if len(names) > 2]


for point, what, pattern in PATTERNS:
    places = []
    for path, text in texts.items():
        for match in re.finditer(pattern, text, re.M):
            line = text.count("\n", 0, match.start()) + 1
            begins = match[0].strip().split("\n")[0]
            places.append(f"{name_of(path)}:{line + match[0].count(chr(10), 0, len(match[0]) - len(match[0].lstrip()))} {begins}")
    show(point, what, places)
show(2, "groups of functions of one shape", twins())
show(5, "facts that three functions of a crate require", facts())
show(5, "parameters that three functions of a crate take together", together())
proofs = sorted(folder.glob("crates/*/proofs/**/*.antt"))
answers = [p for p in proofs if p.name == "Answers.antt"]
count = sum(len(re.findall(r"^pub \S+ : goal\.", p.read_text(), re.M)) for p in answers)
lemmas = sum(len(re.findall(r"^ *(?:pub |abbrev |abbrev pub )?[\w'\-]+ : .*→", p.read_text(), re.M)) for p in proofs if p.name not in ("Answers.antt", "Invariants.antt"))
lines = sum(len(p.read_text().splitlines()) for p in proofs)
print(f"8  {len(answers):4}  files of answers, with {count} answers; {lemmas} lemmas; {lines} lines of proofs")
