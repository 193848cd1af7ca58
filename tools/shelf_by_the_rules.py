"""Writes the cases of the program shelf_cases, with the answers that the rules of the shelf ask for.

The rules are worked out here by plain brute force, from docs/RULES.md alone: strips are lists of codes,
rows are tuples, and every call runs the rounds on the whole strip. Nothing of the program is used.

    python3 tools/shelf_by_the_rules.py        writes data/ and stdout of crates/shelf_cases
"""

import random
from pathlib import Path

MOST_ROWS = 1024
MOST_CELLS = 65535
FILLER = {"glyphs": (7777,), "days": (9, 9, 9, 9)}
UNTOUCHED = 60000


class Refused(Exception):
    """A call is refused by a number, perhaps at a place."""

    def __init__(self, number, place=None):
        super().__init__(number)
        self.text = f"refusal {number}" + ("" if place is None else f" at {place}")


# Kinds of cell. A cell is a tuple of its fields.


def kind_number(kind):
    return {"glyphs": 1, "days": 2}[kind]


def code_of(kind, cell):
    """The code of a printable cell, else None."""
    if kind == "glyphs":
        return cell[0]
    day, weekday, mark, _note = cell
    if 1 <= day <= 31 and 1 <= weekday <= 7:
        return (day * 8 + weekday) * 256 + mark
    return None


def cell_of(kind, code):
    """The cell given back for a code."""
    if kind == "glyphs":
        return (code,) if code < 65536 else (32,)
    day, weekday = code // 2048, code // 256 % 8
    if 1 <= day <= 31 and 1 <= weekday <= 7:
        return (day, weekday, code % 256, 0)
    return (0, 0, 0, 0)


def read_cells(text):
    """Cells as 5 or 1.1.0.9; 5x3 is three of them."""
    cells = []
    for word in text.split():
        cell, _, times = word.partition("x")
        cells += [tuple(int(field) for field in cell.split("."))] * int(times or 1)
    return cells


def spell_cells(cells):
    """The same the other way, with runs as long as they are."""
    words = []
    at = 0
    while at < len(cells):
        end = at
        while end < len(cells) and cells[end] == cells[at]:
            end += 1
        word = ".".join(str(field) for field in cells[at])
        words.append(word if end == at + 1 else f"{word}x{end - at}")
        at = end
    return " ".join(words)


# The rounds.


def is_left(number, round_number):
    r = (round_number // 2 - 1) % 22
    if r < 11:
        return number >> r & 1 == 1
    return number >> (r - 11) & 1 == 0


def blocks_of(string, round_number):
    """The blocks of a round, as lists of numbers."""
    blocks = []
    at = 0
    while at < len(string):
        end = at + 1
        if round_number % 2 == 1:
            while end < len(string) and string[end] == string[at]:
                end += 1
        elif end < len(string) and is_left(string[at], round_number) and not is_left(string[end], round_number):
            end += 1
        blocks.append(string[at:end])
        at = end
    return blocks


class Model:
    """A shelf. A row is (shape, first value, second value, length, round); row n stands at place n - 1."""

    def __init__(self, kind):
        self.kind = kind
        self.rows = []

    def strip(self, number):
        """The codes of a number, written out from row to part."""
        if number == 0:
            return []
        shape, first, second, _length, _round = self.rows[number - 1]
        if shape == "leaf":
            return [first]
        if shape == "pair":
            return self.strip(first) + self.strip(second)
        return self.strip(first) * second

    def file(self, rows, shape, first, second, length, round_number):
        for at, row in enumerate(rows):
            if row[:3] == (shape, first, second):
                return at + 1
        if len(rows) == MOST_ROWS:
            raise Refused(5)
        rows.append((shape, first, second, length, round_number))
        return len(rows)

    def file_block(self, rows, block, round_number):
        if len(block) == 1:
            return block[0]
        length = sum(rows[number - 1][3] for number in block)
        if round_number % 2 == 1:
            return self.file(rows, "repeat", block[0], len(block), length, round_number)
        return self.file(rows, "pair", block[0], block[1], length, round_number)

    def settle(self, codes, places):
        """The number that codes come to. The rows are replaced only at the end: a refusal leaves no trace."""
        if places < len(codes):
            raise Refused(4)
        rows = list(self.rows)
        leaves = {}
        string = []
        for code in codes:
            if code not in leaves:
                leaves[code] = self.file(rows, "leaf", code, 0, 1, 0)
            string.append(leaves[code])
        round_number = 0
        while len(string) >= 2:
            round_number += 1
            blocks = blocks_of(string, round_number)
            string = [self.file_block(rows, block, round_number) for block in blocks]
        self.rows = rows
        return string[0] if string else 0

    def known(self, number):
        return number <= len(self.rows)

    def take(self, kind, places, cells):
        if kind != self.kind:
            raise Refused(1)
        if len(cells) > MOST_CELLS:
            raise Refused(2)
        codes = [code_of(kind, cell) for cell in cells]
        if None in codes:
            raise Refused(3, codes.index(None))
        return self.settle(codes, places)

    def join(self, places, left, right):
        if not self.known(left) or not self.known(right):
            raise Refused(6)
        codes = self.strip(left) + self.strip(right)
        if len(codes) > MOST_CELLS:
            raise Refused(2)
        return self.settle(codes, places)

    def cut(self, places, number, start, size):
        if not self.known(number):
            raise Refused(6)
        codes = self.strip(number)
        if start + size > len(codes):
            raise Refused(7)
        return self.settle(codes[start : start + size], places)

    def write(self, kind, number, start, cells):
        if kind != self.kind:
            raise Refused(1)
        if not self.known(number):
            raise Refused(6)
        codes = self.strip(number)
        if start + len(cells) > len(codes):
            raise Refused(7)
        cells[:] = [cell_of(kind, code) for code in codes[start : start + len(cells)]]


# The lines of a file of cases, and their answers.


def call(model, kind, text, most_places=None):
    """A take, join or cut: the number or the refusal, as text."""
    name, places, *rest = text.split(" ", 2)
    places = int(places)
    if most_places is not None:
        places = min(places, most_places)
    rest = rest[0] if rest else ""
    try:
        if name == "take":
            return str(model.take(kind, places, read_cells(rest)))
        if name == "join":
            return str(model.join(places, *(int(word) for word in rest.split())))
        assert name == "cut", text
        return str(model.cut(places, *(int(word) for word in rest.split())))
    except Refused as refused:
        return refused.text


def answers_to(model, kind, text):
    """How many calls of a list are performed, and the answers, each with a mark before it."""
    head, *calls = (part.strip() for part in text.split("|"))
    capacity, places = (int(word) for word in head.split())
    performed = min(capacity, len(calls))
    answers = [call(model, kind, one, places) for one in calls[:performed]]
    answers += [str(UNTOUCHED)] * (capacity - performed)
    return performed, "".join(f"; {answer}" for answer in answers)


def send(model, kind, text):
    performed, answers = answers_to(model, kind, text)
    return f"{performed} performed{answers}"


def begin(model, kind, text):
    _, answers = answers_to(model, kind, text)
    return f"kind {kind_number(kind)}{answers}"


def each(model, kind, text):
    places, first, count = (int(word) for word in text.split())
    answers = []
    for code in range(first, first + count):
        answers.append(call(model, kind, f"take {places} {spell_cells([cell_of(kind, code)])}"))
    refused = sum(answer.startswith("refusal") for answer in answers)
    return f"last {answers[-1]}, {refused} refused"


def write(model, kind, text):
    number, start, size = (int(word) for word in text.split())
    cells = [FILLER[kind]] * size
    outcome = "ok"
    try:
        model.write(kind, number, start, cells)
    except Refused as refused:
        outcome = refused.text
    return f"{outcome}: {spell_cells(cells)}".strip()


def row(model, number):
    if number == 0 or not model.known(number):
        return "none"
    shape, first, second, length, round_number = model.rows[number - 1]
    values = f"{first}" if shape == "leaf" else f"{first} {second}"
    return f"{shape} {values}, length {length}, round {round_number}"


def row_sum(model):
    """A sum over all rows, so that one that was altered shows."""
    total = 0
    for at in range(MOST_ROWS):
        values = (3,)
        if at < len(model.rows):
            shape, *numbers = model.rows[at]
            values = ({"leaf": 0, "pair": 1, "repeat": 2}[shape], *numbers)
        for value in values:
            total = (total * 1000003 + value) % 2**64
    return str(total)


class Script:
    """The lines of a file: what is asked, and the answer by the rules."""

    def __init__(self):
        self.model = None
        self.lines = []

    def heading(self, text):
        self.lines.append((f"# {text}", None))

    def answer(self, line):
        kind, name, *rest = line.split(" ", 2)
        rest = rest[0] if rest else ""
        if name == "new":
            self.model = Model(kind)
            return f"kind {kind_number(kind)}, 0 rows"
        model = self.model
        if name == "row":
            return row(model, int(rest))
        if name == "length":
            number = int(rest)
            return str(len(model.strip(number))) if model.known(number) else "none"
        if name == "sum":
            return row_sum(model)
        if name == "write":
            return write(model, kind, rest)
        if name == "each":
            answer = each(model, kind, rest)
        elif name == "send":
            answer = send(model, kind, rest)
        elif name == "begin":
            model = self.model = Model(kind)
            answer = begin(model, kind, rest)
        else:
            answer = call(model, kind, line.split(" ", 1)[1])
        return f"{answer}, {len(model.rows)} rows"

    def ask(self, line, by_hand=None):
        """Adds a line. An answer that was worked out by hand has to be the model's."""
        answer = self.answer(line)
        assert by_hand is None or answer == by_hand, (line, answer, by_hand)
        self.lines.append((line, answer))
        return answer

    def data(self):
        return "".join(f"{line}\n" if answer is None else f"{line} = {answer}\n" for line, answer in self.lines)

    def count(self):
        return sum(answer is not None for _, answer in self.lines)


# The cases.


def six_steps(s):
    s.heading("six steps on a new shelf")
    s.ask("glyphs new", "kind 1, 0 rows")
    steps = [
        ("glyphs take 2 5 9", "3, 3 rows"),
        ("glyphs take 2 9 5", "4, 4 rows"),
        ("glyphs take 3 5x3", "5, 5 rows"),
        ("glyphs take 5 5 9 5 9 5", "7, 7 rows"),
        ("glyphs join 3 3 1", "8, 8 rows"),
        ("glyphs cut 3 7 1 3", "9, 9 rows"),
    ]
    for line, answer in steps:
        s.ask(line, answer)
    rows = [
        "leaf 5, length 1, round 0",
        "leaf 9, length 1, round 0",
        "pair 1 2, length 2, round 2",
        "pair 2 1, length 2, round 4",
        "repeat 1 3, length 3, round 1",
        "repeat 3 2, length 4, round 3",
        "pair 6 1, length 5, round 4",
        "pair 3 1, length 3, round 4",
        "pair 2 3, length 3, round 24",
    ]
    for number, text in enumerate(rows, 1):
        s.ask(f"glyphs row {number}", text)
    s.ask("glyphs row 0", "none")
    s.ask("glyphs row 10", "none")
    s.ask("glyphs row 65535", "none")
    for number, length in [(0, "0"), (1, "1"), (7, "5"), (9, "3"), (10, "none"), (65535, "none")]:
        s.ask(f"glyphs length {number}", length)
    s.heading("again: the same numbers, and no row more")
    s.ask("glyphs sum")
    for line, answer in steps:
        s.ask(line, answer.split(",")[0] + ", 9 rows")
    s.ask("glyphs take 3 5 9 5", "8, 9 rows")
    s.ask("glyphs take 3 9 5 9", "9, 9 rows")
    s.ask("glyphs sum")


def after_six_steps(s):
    s.heading("empty strips, one cell, and work areas longer than needed")
    s.ask("glyphs take 0", "0, 9 rows")
    s.ask("glyphs take 65535", "0, 9 rows")
    s.ask("glyphs take 1 9", "2, 9 rows")
    s.ask("glyphs take 65535 5 9", "3, 9 rows")
    s.ask("glyphs join 0 0 0", "0, 9 rows")
    s.ask("glyphs join 5 0 7", "7, 9 rows")
    s.ask("glyphs join 5 7 0", "7, 9 rows")
    s.heading("cuts of nothing, of everything, and leaving the strip")
    s.ask("glyphs cut 0 7 0 0", "0, 9 rows")
    s.ask("glyphs cut 0 7 5 0", "0, 9 rows")
    s.ask("glyphs cut 0 0 0 0", "0, 9 rows")
    s.ask("glyphs cut 5 7 0 5", "7, 9 rows")
    s.ask("glyphs cut 4 7 0 4", "6, 9 rows")
    s.ask("glyphs cut 1 7 4 1", "1, 9 rows")
    most = 2**64 - 1
    for start, size in [(0, 6), (1, 5), (5, 1), (6, 0), (most, 0), (0, most), (most, most), (most, 1), (1, most), (most - 4, 6), (2**63, 2**63), (65536, 0), (0, 65541)]:
        s.ask(f"glyphs cut 9 7 {start} {size}", "refusal 7, 9 rows")
    s.ask("glyphs cut 0 0 0 1", "refusal 7, 9 rows")
    s.ask("glyphs cut 9 10 0 0", "refusal 6, 9 rows")
    s.ask(f"glyphs cut 0 65535 {most} {most}", "refusal 6, 9 rows")
    s.ask("glyphs cut 2 7 0 3", "refusal 4, 9 rows")
    s.heading("joins that are refused")
    for left, right in [(10, 1), (1, 10), (65535, 0), (0, 65535), (10, 10)]:
        s.ask(f"glyphs join 9 {left} {right}", "refusal 6, 9 rows")
    s.ask("glyphs join 4 3 5", "refusal 4, 9 rows")
    s.heading("writing out")
    s.ask("glyphs write 7 0 5", "ok: 5 9 5 9 5")
    s.ask("glyphs write 7 1 3", "ok: 9 5 9")
    s.ask("glyphs write 7 5 0", "ok:")
    s.ask("glyphs write 0 0 0", "ok:")
    s.ask("glyphs write 5 0 3", "ok: 5x3")
    s.ask("glyphs write 7 0 6", "refusal 7: 7777x6")
    s.ask("glyphs write 7 3 3", "refusal 7: 7777x3")
    s.ask(f"glyphs write 7 {most} 2", "refusal 7: 7777x2")
    s.ask("glyphs write 0 0 1", "refusal 7: 7777")
    s.ask("glyphs write 10 0 2", "refusal 6: 7777x2")
    s.ask("days write 7 0 2", "refusal 1: 9.9.9.9x2")
    s.ask("days write 10 9 2", "refusal 1: 9.9.9.9x2")
    s.heading("calls of another kind")
    s.ask("days take 9 1.1.0.0", "refusal 1, 9 rows")
    s.ask("days take 0", "refusal 1, 9 rows")
    s.ask("days take 0 0.0.0.0", "refusal 1, 9 rows")
    s.ask("glyphs sum")


def order_depends_on_history(s):
    s.heading("numbers belong to a shelf's history")
    s.ask("glyphs new")
    s.ask("glyphs take 2 9 5", "3, 3 rows")
    s.ask("glyphs row 1", "leaf 9, length 1, round 0")
    s.ask("glyphs row 3", "pair 1 2, length 2, round 2")
    s.heading("a week and four weeks")
    s.ask("glyphs new")
    week = "1 2 3 4 5 6 7"
    s.ask(f"glyphs take 7 {week}", "13, 13 rows")
    s.ask(f"glyphs take 28 {week} {week} {week} {week}", "19, 19 rows")
    for number in range(8, 20):
        s.ask(f"glyphs row {number}")


def long_strips(s):
    s.heading("the longest strips")
    s.ask("glyphs new")
    s.ask("glyphs take 65535 7x65535", "2, 2 rows")
    s.ask("glyphs row 2", "repeat 1 65535, length 65535, round 1")
    s.ask("glyphs length 2", "65535")
    s.ask("glyphs write 2 0 65535", "ok: 7x65535")
    s.ask("glyphs take 65536 7x65536", "refusal 2, 2 rows")
    s.ask("glyphs take 0 7x65536", "refusal 2, 2 rows")
    s.ask("glyphs take 65536 8x65535 7", "refusal 2, 2 rows")
    s.ask("glyphs take 65534 7x65535", "refusal 4, 2 rows")
    s.ask("glyphs take 65534 8x65535", "refusal 4, 2 rows")
    s.ask("glyphs join 65536 2 1", "refusal 2, 2 rows")
    s.ask("glyphs join 65536 1 2", "refusal 2, 2 rows")
    s.ask("glyphs join 0 2 2", "refusal 2, 2 rows")
    s.ask("glyphs join 0 2 3", "refusal 6, 2 rows")
    s.ask("glyphs join 65534 0 2", "refusal 4, 2 rows")
    s.ask("glyphs join 65535 0 2", "2, 2 rows")
    s.ask("glyphs cut 65535 2 0 65535", "2, 2 rows")
    s.ask("glyphs cut 10 2 60000 10", "3, 3 rows")
    s.ask("glyphs cut 9 2 60000 10", "refusal 4, 3 rows")
    s.ask("glyphs cut 65534 2 1 65534", "4, 4 rows")
    s.ask("glyphs join 65535 4 1", "2, 4 rows")
    s.ask("glyphs join 65535 1 4", "2, 4 rows")
    s.ask("glyphs take 65535 7x32767 8 7x32767")
    s.ask("glyphs write 6 32766 3")
    s.heading("a work area that is one place short leaves no leaf behind")
    s.ask("glyphs new")
    s.ask("glyphs take 2 1 2 3", "refusal 4, 0 rows")
    s.ask("glyphs row 1", "none")
    s.ask("glyphs take 0 1", "refusal 4, 0 rows")
    s.ask("glyphs take 3 1 2 3")
    s.ask("glyphs take 3 1 2 3 4", "refusal 4, 5 rows")
    s.ask("glyphs row 6", "none")


def full_shelves(s):
    s.heading("a full shelf")
    s.ask("glyphs new")
    s.ask("glyphs each 1 100 1024", "last 1024, 0 refused, 1024 rows")
    s.ask("glyphs sum")
    s.ask("glyphs take 1 99", "refusal 5, 1024 rows")
    s.ask("glyphs take 2 100 101", "refusal 5, 1024 rows")
    s.ask("glyphs take 2 100x2", "refusal 5, 1024 rows")
    s.ask("glyphs join 2 1 2", "refusal 5, 1024 rows")
    s.ask("glyphs join 1 1 2", "refusal 4, 1024 rows")
    s.ask("glyphs join 2 1 1025", "refusal 6, 1024 rows")
    s.ask("glyphs join 1 1024 0", "1024, 1024 rows")
    s.ask("glyphs take 1 600", "501, 1024 rows")
    s.ask("glyphs take 0", "0, 1024 rows")
    s.ask("glyphs cut 1 1024 0 1", "1024, 1024 rows")
    s.ask("glyphs write 1024 0 1", "ok: 1123")
    s.ask("glyphs each 1 90 20", "last 10, 10 refused, 1024 rows")
    s.ask("glyphs row 1024", "leaf 1123, length 1, round 0")
    s.ask("glyphs row 1025", "none")
    s.ask("glyphs sum")
    s.heading("calls that would need a row too many leave the rows as they were")
    s.ask("glyphs new")
    s.ask("glyphs each 1 1 1020", "last 1020, 0 refused, 1020 rows")
    s.ask("glyphs sum")
    s.ask("glyphs take 9 2001 2002 2003 2004 2005", "refusal 5, 1020 rows")
    s.ask("glyphs row 1021", "none")
    s.ask("glyphs take 9 2001 2002 2003", "refusal 5, 1020 rows")
    s.ask("glyphs take 9 1 2 3 4 5 6", "refusal 5, 1020 rows")
    s.ask("glyphs sum")
    s.ask("glyphs take 9 2001 2002", "1023, 1023 rows")
    s.ask("glyphs take 9 2001 2002 2001", "1024, 1024 rows")
    s.ask("glyphs join 9 1023 1021", "1024, 1024 rows")
    s.ask("glyphs join 9 1024 1", "refusal 5, 1024 rows")
    s.ask("glyphs cut 9 1024 0 2", "1023, 1024 rows")
    s.ask("glyphs cut 9 1024 1 2", "refusal 5, 1024 rows")
    s.ask("glyphs take 9 2001 2002 2001", "1024, 1024 rows")
    s.ask("glyphs sum")


def days(s):
    s.heading("days: the note never counts, the mark does")
    s.ask("days new", "kind 2, 0 rows")
    s.ask("days take 1 1.1.0.0", "1, 1 rows")
    s.ask("days take 1 1.1.0.9", "1, 1 rows")
    s.ask("days take 1 1.1.3.0", "2, 2 rows")
    s.ask("days row 1", "leaf 2304, length 1, round 0")
    s.ask("days row 2", "leaf 2307, length 1, round 0")
    s.ask("days take 2 1.1.0.7 1.1.3.8", "3, 3 rows")
    s.ask("days take 2 1.1.0.1 1.1.3.2", "3, 3 rows")
    s.ask("days write 3 0 2", "ok: 1.1.0.0 1.1.3.0")
    s.ask("days take 3 1.1.0.1 1.1.0.2 1.1.0.3", "4, 4 rows")
    s.ask("days write 4 0 3", "ok: 1.1.0.0x3")
    s.ask("days take 2 31.7.255.255 1.1.0.0")
    s.ask("days write 6 0 2")
    s.heading("days that are not printable")
    s.ask("days take 3 2.2.0.0 5.0.0.0 2.2.0.0", "refusal 3 at 1, 6 rows")
    s.ask("days take 3 2.2.0.0 2.2.0.0 32.1.0.0", "refusal 3 at 2, 6 rows")
    s.ask("days take 3 0.0.0.0 2.2.0.0 32.1.0.0", "refusal 3 at 0, 6 rows")
    s.ask("days take 3 2.8.0.0 2.2.0.0", "refusal 3 at 0, 6 rows")
    s.ask("days take 0 2.2.0.0x5 255.255.255.255", "refusal 3 at 5, 6 rows")
    s.ask("days take 0 2.2.0.0x65534 0.1.0.0", "refusal 3 at 65534, 6 rows")
    s.ask("days take 0 2.2.0.0x65535 0.1.0.0", "refusal 2, 6 rows")
    s.ask("days take 2 2.2.0.0x3", "refusal 4, 6 rows")
    s.ask("days row 7", "none")
    s.ask("glyphs take 9 5", "refusal 1, 6 rows")
    s.ask("glyphs write 1 0 1", "refusal 1: 7777")
    s.ask("days write 4 2 2", "refusal 7: 9.9.9.9x2")
    s.ask("days write 7 0 2", "refusal 6: 9.9.9.9x2")
    s.ask("days sum")


SENT = [
    "take 2 5 9",
    "join 9 3 4",
    "take 1 9 5",
    "take 9 9 5",
    "cut 9 4 1 2",
    "take 5 5 9 5 9 5",
    "cut 3 6 1 3",
    "join 0 0 0",
    "cut 0 6 0 5",
    "take 9 5 9",
]


def sends(s):
    s.heading("calls one by one")
    s.ask("glyphs new")
    for line in SENT:
        s.ask(f"glyphs {line}")
    s.ask("glyphs sum")
    joined = " | ".join(SENT)
    s.heading("the same calls sent as a list, with places for more answers")
    s.ask("glyphs new")
    s.ask(f"glyphs send 12 9 | {joined}")
    s.ask("glyphs sum")
    s.heading("as many as there are places for answers")
    s.ask("glyphs new")
    s.ask(f"glyphs send 3 9 | {joined}")
    s.ask("glyphs sum")
    s.ask(f"glyphs send 0 9 | {joined}")
    s.ask("glyphs sum")
    s.heading("a call has at most the places that there are")
    s.ask("glyphs new")
    s.ask(f"glyphs send 10 4 | {joined}")
    s.ask(f"glyphs send 10 0 | {joined}")
    s.ask("glyphs send 2 4", None)
    s.heading("sent to a shelf of another kind")
    s.ask("days send 4 9 | take 1 1.1.0.0 | join 9 1 2 | cut 9 1 0 1")
    s.ask("days new")
    s.ask("days send 4 9 | take 2 1.1.0.1 1.1.1.1 | take 2 1.1.0.5 1.1.1.6 | take 2 1.1.0.5 0.1.1.6 | join 4 3 3")
    s.heading("sent to a new shelf, which takes the place of the one there was")
    s.ask(f"glyphs begin 12 9 | {joined}")
    s.ask("glyphs sum")
    s.ask(f"glyphs begin 3 9 | {joined}")
    s.ask("glyphs sum")
    s.ask("glyphs send 1 9 | join 2 2 1")
    s.ask("days begin 5 2 | take 9 1.1.0.1 1.1.1.1 | take 2 1.1.0.5 1.1.1.6 | take 1 1.1.0.5 0.1.1.6 | join 4 3 1 | cut 1 3 1 1")
    s.ask("glyphs take 9 5")
    s.ask("glyphs begin 2 4", None)
    s.ask("glyphs row 1")


def cases():
    s = Script()
    for part in (six_steps, after_six_steps, order_depends_on_history, long_strips, full_shelves, days, sends):
        part(s)
    return s


# Longer histories.


def some_cell(chance, kind, letters):
    letter = chance.randrange(letters)
    if kind == "glyphs":
        return (letter,)
    if chance.randrange(40) == 0:
        return (letter, 0, 0, 0)
    return (1 + letter // 2, 1 + letter % 2, chance.randrange(2), chance.randrange(256))


def some_strip(chance, kind, letters):
    pool = [some_cell(chance, kind, letters) for _ in range(chance.randint(1, 6))]
    cells = []
    for _ in range(chance.randint(0, 8)):
        shape = chance.randrange(3)
        if shape == 0:
            cells += [chance.choice(pool)] * chance.randint(1, 9)
        elif shape == 1:
            cells += pool * chance.randint(1, 4)
        else:
            cells += [chance.choice(pool) for _ in range(chance.randint(1, 6))]
    return cells


def some_call(chance, s, kind, letters):
    rows = len(s.model.rows)
    number = lambda: rows + 1 if chance.randrange(25) == 0 else chance.randint(max(0, rows - 60), rows)
    name = chance.choice(["take", "take", "join", "cut", "cut"])
    if name == "take":
        cells = some_strip(chance, kind, letters)
        need, rest = len(cells), " " + spell_cells(cells)
    elif name == "join":
        left, right = number(), number()
        need = sum(len(s.model.strip(n)) for n in (left, right) if s.model.known(n))
        rest = f" {left} {right}"
    else:
        at = number()
        whole = len(s.model.strip(at)) if s.model.known(at) else 0
        start = chance.randint(0, whole)
        need = chance.randint(0, whole - start) + (chance.randrange(15) == 0)
        rest = f" {at} {start} {need}"
    places = chance.choice([need, need, need, need + 7, 300, max(0, need - 1)])
    return f"{name} {places}{rest}".rstrip()


def history(seed, kind, letters, calls):
    chance = random.Random(seed)
    s = Script()
    s.ask(f"{kind} new")
    for turn in range(calls):
        if turn % 10 == 9:
            several = [some_call(chance, s, kind, letters) for _ in range(3)]
            s.ask(f"{kind} send 4 {chance.choice([40, 400])} | " + " | ".join(several))
        else:
            s.ask(f"{kind} {some_call(chance, s, kind, letters)}")
        if turn % 5 == 4:
            at = chance.randint(0, len(s.model.rows))
            s.ask(f"{kind} write {at} 0 {min(len(s.model.strip(at)), 300)}")
        if turn % 8 == 7:
            s.ask(f"{kind} sum")
    return s


HISTORIES = {
    "few_glyphs.txt": (1, "glyphs", 3, 500),
    "many_glyphs.txt": (2, "glyphs", 400, 300),
    "some_days.txt": (3, "days", 12, 400),
}


def main():
    crate = Path(__file__).resolve().parent.parent / "crates" / "shelf_cases"
    out = []
    s = cases()
    (crate / "data" / "cases.txt").write_text(s.data())
    out += [line if answer is None else f"{line} = {answer}: agrees" for line, answer in s.lines]
    total = s.count()
    for name, how in HISTORIES.items():
        s = history(*how)
        (crate / "data" / name).write_text(s.data())
        out.append(f"{name}: {s.count()} of {s.count()} agree")
        total += s.count()
        answers = [answer for _, answer in s.lines]
        tally = {n: sum(f"refusal {n}" in answer for answer in answers) for n in range(1, 8)}
        print(name, s.count(), "lines, rows", len(s.model.rows), "refusals", tally)
    out.append(f"{total} of {total} cases agree")
    (crate / "stdout").write_text("\n".join(out) + "\n")


if __name__ == "__main__":
    main()
