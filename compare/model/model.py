#!/usr/bin/env python3
"""A plain model of the rules for positions, moves, indexes, texts and readers (docs/RULES.md), which works
on lists of places and knows no tree. It makes small pages, asks every call at every position, and writes
the commands for `panel` and the answers that the rules have.

    model.py PAGES NUMBER COMMANDS ANSWERS      (the number chooses the pages)

It is run beside the program; it was not made from what the program prints.
"""
import itertools
import random
import sys

LF = b"\n"
CHARACTERS = [b"a", b"7", b" ", "é".encode(), "€".encode(), "👍🏻".encode(), b"\r\n", LF]


class Run:
    def __init__(self, row, characters, words, joined):
        self.row, self.characters, self.words, self.joined = row, characters, words, joined

    @property
    def count(self):
        return len(self.characters)

    @property
    def breaks(self):
        return b"".join(self.characters).endswith(LF)


class Page:
    """A source: its runs, its lines, its places, and what the calls answer."""

    def __init__(self, runs, password):
        self.runs, self.root = runs, 0
        flat = [c for r in runs for c in r.characters]
        self.masked = password and len(set(flat)) > 1
        self.shown = [("•".encode() if self.masked else c) for c in flat]
        self.worded = not password
        self.before = list(itertools.accumulate([0] + [r.count for r in runs]))
        self.total = self.before[-1]
        self.line_of, self.lines = [], []
        for k, run in enumerate(runs):
            if k == 0 or not runs[k - 1].joined:
                self.lines.append([])
            self.lines[-1].append(k)
            self.line_of.append(len(self.lines) - 1)
        self.places = [(k, i) for k, r in enumerate(runs) for i in range(r.count)]
        self.places.append((len(runs) - 1, runs[-1].count))

    # positions are pairs of a run's place in the list and an index
    def positions(self):
        return [(k, i) for k, r in enumerate(self.runs) for i in range(r.count + 1)]

    def offset(self, p):
        return self.before[p[0]] + p[1]

    def starts_line(self, p):
        return p[1] == 0 and (p[0] == 0 or not self.runs[p[0] - 1].joined)

    def starts_paragraph(self, p):
        return p == (0, 0) or (self.starts_line(p) and self.runs[p[0] - 1].breaks)

    def ends_document(self, p):
        return p[0] == len(self.runs) - 1 and p[1] == self.runs[p[0]].count

    def ends_line(self, p):
        return p[1] == self.runs[p[0]].count and not self.runs[p[0]].joined

    def ends_paragraph(self, p):
        return self.ends_document(p) or (self.ends_line(p) and self.runs[p[0]].breaks)

    def starts_word(self, p):
        return self.starts_paragraph(p) or (self.worded and p[1] in self.runs[p[0]].words)

    def to_start(self, p):
        return self.places[self.offset(p)]

    def to_end(self, p):
        return (p[0] - 1, self.runs[p[0] - 1].count) if p[1] == 0 and p[0] > 0 else p

    def stops(self, unit):
        test = {"character": lambda p: True, "word": self.starts_word, "line": self.starts_line, "paragraph": self.starts_paragraph}[unit]
        return [k for k, p in enumerate(self.places) if k == 0 or test(p)]

    def after(self, unit, k):
        return next((s for s in self.stops(unit) if s > k), self.total)

    def earlier(self, unit, k):
        return next((s for s in reversed(self.stops(unit)) if s < k), 0)

    def end_of_line(self, line):
        last = self.lines[line][-1]
        return (last, self.runs[last].count)

    def line_start(self, p):
        return self.to_start(self.end_of_line(self.line_of[p[0]]))

    def line_end(self, p):
        return self.end_of_line(self.line_of[self.to_start(p)[0]])

    def line_back(self, p):
        k = self.offset(p)
        return (0, 0) if k == 0 else (self.lines[self.line_of[self.places[k - 1][0]]][0], 0)

    def paragraph_start(self, p):
        p = self.line_start(p)
        while not (self.ends_document(p) or self.starts_paragraph(p)):
            p = self.line_start(p)
        return p

    def paragraph_end(self, p):
        p = self.line_end(p)
        while not self.ends_paragraph(p):
            p = self.line_end(p)
        return p

    def paragraph_back(self, p):
        p = self.line_back(p)
        while not self.starts_paragraph(p):
            p = self.line_back(p)
        return p

    def text(self, a, b):
        return b"".join(self.shown[a:b])

    def units(self, utf16, k):
        s = self.text(0, k).decode()
        return len(s.encode("utf-16-le")) // 2 if utf16 else len(s)

    def search(self, utf16, n):
        if n == self.units(utf16, self.total):
            return (len(self.runs) - 1, self.runs[-1].count)
        return next((self.places[k] for k in range(self.total) if self.units(utf16, k + 1) > n), None)


class Script:
    """Commands, and the answer expected of each that prints one."""

    def __init__(self):
        self.commands, self.answers = [], []

    def tell(self, command):
        self.commands.append(command)

    def ask(self, command, answer):
        self.commands.append(command)
        self.answers.append(answer)


def write(page, p):
    return f"{page.root}:{page.runs[p[0]].row}:{p[1]}"


def tables(script, page, password):
    """The lines that build the page: a document or a password with the runs as its children."""
    n = len(page.runs)
    script.tell("clear")
    script.tell(f"row {5 if password else 3} 0 0 65535 0 65535 65535 0 {n} 0 0 0 0 0 0")
    text, lengths, words = b"", [], []
    for k, r in enumerate(page.runs):
        previous = page.runs[k - 1].row if k and page.runs[k - 1].joined else 65535
        following = page.runs[k + 1].row if r.joined else 65535
        own = b"".join(r.characters)
        script.tell(f"row 1 0 0 0 {k} {previous} {following} {n} 0 {len(text)} {len(own)} {len(lengths)} {r.count} {len(words)} {len(r.words)}")
        text, lengths, words = text + own, lengths + [len(c) for c in r.characters], words + r.words
    script.tell("child " + " ".join(str(r.row) for r in page.runs))
    script.tell("text " + text.hex())
    script.tell("length " + " ".join(map(str, lengths)))
    script.tell("word " + " ".join(map(str, words)))
    script.ask("open 0", "page masked" if page.masked else "page plain")


def at_positions(script, page):
    """Every call on one position."""
    flags = {"is_document_start": lambda p: p == (0, 0), "is_document_end": page.ends_document, "is_word_start": page.starts_word,
             "is_line_start": page.starts_line, "is_line_end": page.ends_line, "is_paragraph_start": page.starts_paragraph,
             "is_paragraph_end": page.ends_paragraph}
    moves = {"biased_to_start": page.to_start, "biased_to_end": page.to_end,
             "forward_to_word_start": lambda p: page.places[page.after("word", page.offset(p))],
             "backward_to_word_start": lambda p: page.places[page.earlier("word", page.offset(p))],
             "forward_to_line_start": page.line_start, "forward_to_line_end": page.line_end, "backward_to_line_start": page.line_back,
             "forward_to_paragraph_start": page.paragraph_start, "forward_to_paragraph_end": page.paragraph_end,
             "backward_to_paragraph_start": page.paragraph_back}
    for p in page.positions():
        k, name = page.offset(p), write(page, p)
        for call, test in flags.items():
            script.ask(f"{call} {name}", "= yes" if test(p) else "= no")
        for call, move in moves.items():
            script.ask(f"{call} {name}", "= " + write(page, move(p)))
        script.ask(f"forward_to_character_start {name}", "! 7" if k == page.total else "= " + write(page, page.places[k + 1]))
        script.ask(f"backward_to_character_start {name}", "! 8" if k == 0 else "= " + write(page, page.places[k - 1]))
        script.ask(f"to_line_index {name}", f"= {page.line_of[p[0]]}")
        script.ask(f"to_global_usv_index {name}", f"= {page.units(False, k)}")
        script.ask(f"to_global_utf16_index {name}", f"= {page.units(True, k)}")


def at_pairs(script, page, pairs):
    """Comparison, ranges and texts of two positions."""
    for p, q in pairs:
        a, b, names = page.offset(p), page.offset(q), f"{write(page, p)} {write(page, q)}"
        script.ask(f"compare {names}", "= less" if a < b else "= equal" if a == b else "= greater")
        script.ask(f"same {names}", "= yes" if p == q else "= no")
        script.ask(f"range {names}", f"= {names}" if a <= b else f"= {write(page, q)} {write(page, p)}")
        own = page.text(min(a, b), max(a, b))
        script.ask(f"text {names} {len(own)}", f"= {len(own)} {own.hex()}".rstrip())
        if own:
            script.ask(f"text {names} {len(own) - 1}", f"! 11 {len(own)}")


def at_numbers(script, page):
    """Lines and global indexes by number, up to one that is too large."""
    for n in range(len(page.lines) + 1):
        found = n < len(page.lines)
        script.ask(f"line_range_from_index {n}", f"= {write(page, (page.lines[n][0], 0))} {write(page, page.end_of_line(n))}" if found else "! 10")
    for utf16, name in ((False, "usv"), (True, "utf16")):
        for n in range(page.units(utf16, page.total) + 2):
            p = page.search(utf16, n)
            script.ask(f"text_position_from_global_{name}_index {n}", "! 10" if p is None else "= " + write(page, p))


def read(script, page, chance):
    """A reader and a list of calls on it, refused ones among them."""
    start = end = (0, 0)
    script.ask("reader", f"= {write(page, start)} {write(page, end)}")
    for _ in range(24):
        unit = chance.choice(["character", "word", "line", "paragraph"])
        kind = chance.choice(["read_on"] * 5 + ["read_back"] * 3 + ["set_start", "set_end"])
        if kind in ("set_start", "set_end"):
            p = chance.choice(page.positions())
            k = page.offset(p)
            if kind == "set_start":
                start, end = (p, end) if k < page.offset(end) else (p, p)
            else:
                start, end = (start, p) if page.offset(start) < k else (p, p)
            if page.offset(start) < page.offset(end):
                start = page.to_start(start)
            script.ask(f"{kind} {write(page, p)}", f"= {write(page, start)} {write(page, end)}")
            continue
        k = page.offset(end if kind == "read_on" else start)
        if k == (page.total if kind == "read_on" else 0):
            script.ask(f"{kind} {unit} 99", "! 7" if kind == "read_on" else "! 8")
            continue
        a, b = (k, page.after(unit, k)) if kind == "read_on" else (page.earlier(unit, k), k)
        piece = page.text(a, b)
        if chance.random() < 0.2:
            script.ask(f"{kind} {unit} {len(piece) - 1}", f"! 11 {len(piece)}")
            continue
        start, end = page.places[a], page.places[b]
        script.ask(f"{kind} {unit} {len(piece)}", f"= {write(page, start)} {write(page, end)} {len(piece)} {piece.hex()}")
    script.ask("close", f"= {write(page, start)} {write(page, end)}")


def make(chance):
    """Two or three runs, joined or not, with break marks or not, perhaps with an empty last one."""
    n, password = chance.choice([1, 2, 2, 3, 3, 3]), chance.random() < 0.25
    runs = []
    for k in range(n):
        size = chance.choice([1, 2, 2, 3]) if k < n - 1 else chance.choice([0, 1, 2, 3])
        characters = [chance.choice(CHARACTERS[:6]) for _ in range(size)]
        if size and chance.random() < 0.5:
            characters[-1] = chance.choice(CHARACTERS[6:])
        words = [i for i in range(size) if chance.random() < 0.4]
        runs.append(Run(k + 1, characters, words, k < n - 1 and chance.random() < 0.5))
    return Page(runs, password), password


def main():
    pages, number, commands, answers = int(sys.argv[1]), int(sys.argv[2]), sys.argv[3], sys.argv[4]
    chance, script = random.Random(number), Script()
    for _ in range(pages):
        page, password = make(chance)
        tables(script, page, password)
        at_positions(script, page)
        pairs = list(itertools.product(page.positions(), repeat=2))
        at_pairs(script, page, chance.sample(pairs, min(len(pairs), 30)))
        at_numbers(script, page)
        read(script, page, chance)
    open(commands, "w").write("\n".join(script.commands) + "\n")
    open(answers, "w").write("\n".join(script.answers) + "\n")
    print(f"{pages} pages, {len(script.answers)} answers")


if __name__ == "__main__":
    main()
