"""Writes the jobs of the program job_cases, with the printouts that the rules ask for.

The printouts come from jobs_by_the_rules.py. The numbered jobs (data/000.job and on) are not written here: they
came with printouts that another program worked out from the rules, and the two have to agree.

    python3 tools/job_cases.py        writes data/ and stdout of crates/job_cases
"""

import random
from pathlib import Path

from jobs_by_the_rules import MOST_BYTES, MOST_TRAY, OPERANDS, command, differing, line, lines, printed, take
from shelf_by_the_rules import MOST_ROWS, Model


class Lines:
    """Small jobs, a line for each: the bytes in base 16, and the printout with its lines parted by slashes."""

    def __init__(self):
        self.text = []
        self.count = 0

    def heading(self, text):
        self.text.append(f"# {text}")

    def add(self, job, by_hand=None):
        """Adds a job. A printout that was worked out by hand has to be the model's."""
        told = lines(job)
        assert by_hand is None or told == by_hand, (job.hex(" "), told, by_hand)
        self.text.append(f"{job.hex(' ').upper()} = {' / '.join(told)}".strip())
        self.count += 1


# Small jobs.


ALTERNATING = take([5, 9, 5, 9, 5])


def worked(s):
    s.heading("an empty job, a take and a search, and the six calls of the worked shelf")
    s.add(b"", [])
    s.add(take([5, 9]) + command("F", 3, 0, 1, 1, 1), ["T 3", "F none"])
    job = take([5, 9]) + take([9, 5]) + take([5, 5, 5]) + ALTERNATING
    job += command("J", 3, 1) + command("K", 7, 1, 3) + command("F", 7, 0, 3, 0, 5) + command("F", 7, 0, 2, 0, 4)
    job += command("F", 99, 0, 1, 0, 1) + command("J", 8, 16) + command("K", 7, 4, 2) + command("T") + b"X"
    s.add(
        job,
        ["T 3", "T 4", "T 5", "T 7", "J 8", "K 9", "F 0 2 2", "F refused 8", "F refused 7"]
        + ["J refused 6", "K refused 7", "T 0", "job stopped at 98"],
    )


def stops(s):
    s.heading("each command cut short after each number of bytes")
    for letter, operands in OPERANDS.items():
        whole = command(letter, *range(1, operands + 1))
        for size in range(1, len(whole)):
            s.add(take([5]) + whole[:size], ["T 1", "job stopped at 4"])
            s.add(whole[:size], ["job stopped at 0"])
    s.heading("every byte that is no letter of a command")
    for byte in range(256):
        if chr(byte) not in OPERANDS:
            s.add(b"T" + bytes([byte]) + b"TT", ["T 0", "job stopped at 1"])
    s.heading("a letter within an operand is none, and a tray that was not taken is lost")
    s.add(b"C" + b"TT" + b"T" + b"C" + b"XX" + b"T", ["T 1", "T 2"])
    s.add(take([5]) + command("C", 6), ["T 1"])
    s.add(command("C", 6), [])


def operands(s):
    s.heading("operands have their high byte first")
    s.add(take([256]) + take([1]) + take([256]), ["T 1", "T 2", "T 1"])
    s.add(take([0]) + take([65535]) + take([255]) + take([65280]) + take([0, 65535]), ["T 1", "T 2", "T 3", "T 4", "T 5"])
    s.add(take([5]) + command("J", 256, 0) + command("J", 0, 256) + command("J", 1, 0), ["T 1", "J refused 6", "J refused 6", "J 1"])
    s.add(take([5, 6, 7]) + command("K", 5, 256, 1) + command("K", 5, 1, 256) + command("K", 5, 1, 1))
    s.heading("taking empties the tray")
    s.add(b"T", ["T 0"])
    s.add(b"TTT", ["T 0", "T 0", "T 0"])
    s.add(take([5, 9]) + b"T" + take([5]) + b"T", ["T 3", "T 0", "T 1", "T 0"])
    s.add(take([7] * 40) + b"T" + take([7] * 40) + take([7] * 39), ["T 2", "T 0", "T 2", "T 3"])


def joins(s):
    s.heading("joins: sides, the empty strip, unknown numbers")
    s.add(take([5]) + take([9]) + command("J", 1, 2) + command("J", 2, 1) + take([9, 5]) + take([5, 9]), ["T 1", "T 2", "J 3", "J 4", "T 4", "T 3"])
    s.add(command("J", 0, 0) + take([5, 9]) + command("J", 0, 3) + command("J", 3, 0), ["J 0", "T 3", "J 3", "J 3"])
    for left, right in [(4, 1), (1, 4), (4, 4), (65535, 0), (0, 65535), (1025, 3), (3, 1024)]:
        s.add(take([5, 9]) + command("J", left, right) + command("J", 1, 2), ["T 3", "J refused 6", "J 3"])
    s.heading("joins up to the work area's 8192 places, and beyond")
    doubled = take([5]) + b"".join(command("J", number, number) for number in range(1, 14))
    told = ["T 1"] + [f"J {number}" for number in range(2, 15)]
    s.add(doubled + command("K", 14, 8191, 1) + command("K", 14, 8191, 2), told + ["K 1", "K refused 7"])
    s.add(doubled + command("J", 14, 1) + command("J", 1, 14), told + ["J refused 4", "J refused 4"])
    s.add(doubled + command("J", 14, 0) + command("J", 0, 14) + command("J", 14, 14), told + ["J 14", "J 14", "J refused 4"])
    s.add(doubled + command("K", 14, 1, 8191) + command("J", 15, 1) + command("J", 1, 15), told + ["K 15", "J 14", "J 14"])
    s.add(doubled + command("J", 14, 15) + command("F", 14, 0, 8192, 0, 8192), told + ["J refused 6", "F 0 0 1"])
    s.add(doubled + command("F", 14, 0, 4097, 0, 8192) + command("F", 14, 1, 4096, 0, 8191), told + ["F 0 1 4096", "F 0 1 4096"])
    s.add(doubled + command("F", 14, 0, 4096, 0, 8192) + command("F", 14, 8192, 0, 0, 0), told + ["F refused 8", "F refused 8"])


def cuts(s):
    s.heading("cuts of nothing, of everything, of a part, and leaving the strip")
    for start, size, told in [
        (0, 0, "K 0"),
        (5, 0, "K 0"),
        (6, 0, "K refused 7"),
        (0, 5, "K 4"),
        (0, 6, "K refused 7"),
        (1, 5, "K refused 7"),
        (4, 1, "K 1"),
        (3, 2, None),
        (65535, 0, "K refused 7"),
        (0, 65535, "K refused 7"),
        (65535, 65535, "K refused 7"),
        (65535, 1, "K refused 7"),
        (65533, 8, "K refused 7"),
    ]:
        job = take([5, 9]) + command("J", 3, 3) + command("J", 4, 1)
        s.add(job + command("K", 5, start, size), ["T 3", "J 4", "J 5", told.replace("K 4", "K 5")] if told else None)
    s.heading("cuts of the empty strip and of unknown numbers")
    s.add(command("K", 0, 0, 0) + command("K", 0, 0, 1) + command("K", 0, 1, 0), ["K 0", "K refused 7", "K refused 7"])
    s.add(take([5]) + command("K", 2, 0, 0) + command("K", 65535, 9, 9) + command("K", 1, 0, 1), ["T 1", "K refused 6", "K refused 6", "K 1"])


def searches(s):
    s.heading("searches: hits, none, refusals")
    five = ALTERNATING
    number = int(lines(five)[0].split()[1])
    for fragments, told in [
        ((0, 3, 0, 5), "F 0 2 2"),
        ((2, 3, 0, 5), "F 0 2 2"),
        ((0, 3, 1, 4), "F 2 0 1"),
        ((0, 3, 0, 4), "F 0 0 1"),
        ((1, 3, 0, 5), "F 1 0 1"),
        ((0, 3, 1, 3), "F none"),
        ((0, 5, 0, 3), "F none"),
        ((0, 5, 0, 0), "F none"),
        ((0, 1, 5, 0), "F none"),
        ((0, 1, 1, 1), "F none"),
        ((0, 5, 0, 5), "F 0 0 1"),
        ((0, 2, 0, 4), "F refused 8"),
        ((0, 2, 1, 3), "F 2 0 1"),
        ((0, 0, 0, 0), "F refused 8"),
        ((5, 0, 5, 0), "F refused 8"),
        ((0, 0, 0, 5), "F refused 8"),
        ((6, 0, 0, 0), "F refused 7"),
        ((0, 3, 6, 0), "F refused 7"),
        ((0, 6, 0, 5), "F refused 7"),
        ((0, 3, 0, 6), "F refused 7"),
        ((3, 3, 0, 5), "F refused 7"),
        ((0, 3, 3, 3), "F refused 7"),
        ((65535, 65535, 65535, 65535), "F refused 7"),
        ((65535, 1, 0, 1), "F refused 7"),
        ((0, 1, 65535, 1), "F refused 7"),
        ((65533, 8, 0, 5), "F refused 7"),
    ]:
        s.add(five + command("F", number, *fragments), [f"T {number}", told])
    s.heading("searches in unknown numbers and in the empty strip")
    for unknown in [0, number + 1, 1024, 1025, 65535]:
        s.add(five + command("F", unknown, 0, 1, 0, 1), [f"T {number}", "F refused 7"])
        s.add(five + command("F", unknown, 0, 0, 0, 0), [f"T {number}", "F refused 8"])
        s.add(five + command("F", unknown, 0, 0, 1, 0), [f"T {number}", "F refused 7"])
    s.add(command("F", 0, 0, 0, 0, 0) + command("F", 7, 0, 1, 0, 0) + command("F", 65535, 0, 0, 0, 0), ["F refused 8", "F refused 7", "F refused 8"])
    s.heading("a search changes nothing: the tray stays, and so do the numbers")
    s.add(five + command("C", 5) + command("F", number, 0, 3, 0, 5) + command("C", 9) + command("T"), [f"T {number}", "F 0 2 2", "T 3"])


def some_glyphs(chance):
    """A strip with repetitions in it."""
    pool = [chance.randrange(3) for _ in range(chance.randint(1, 4))]
    glyphs = []
    for _ in range(chance.randint(1, 3)):
        glyphs += chance.choice([pool * chance.randint(1, 4), [chance.choice(pool)] * chance.randint(1, 5)])
    return glyphs[:24]


def some_search(chance, number, length):
    """The operands of a search that mostly lies in the strip, in a field that is mostly short enough."""
    start = chance.randrange(max(1, length))
    size = chance.randint(1, max(1, length - start))
    field_start = chance.randint(0, start) if chance.randrange(4) else 0
    field_size = min(length - field_start, 2 * size - 1) + (chance.randrange(12) == 0)
    return [number, start, size, field_start, field_size]


def some_job(chance):
    """A history of takes, joins, cuts and searches; a number is now and then unknown."""
    job = b""
    model = Model("glyphs")
    for turn in range(chance.randint(4, 12)):
        rows = len(model.rows)
        number, other = (chance.randint(max(0, rows - 3), rows + (chance.randrange(10) == 0)) for _ in range(2))
        length = len(model.strip(number)) if model.known(number) else 3
        start = chance.randint(0, length)
        letter = chance.choice("TTJKFFFF") if turn else "T"
        glyphs = some_glyphs(chance)
        operands = {
            "T": [],
            "J": [number, other],
            "K": [number, start, chance.randint(0, length - start)],
            "F": some_search(chance, number, length),
        }[letter]
        job += take(glyphs) if letter == "T" else command(letter, *operands)
        line(model, glyphs, letter, operands)
    return job


def histories(s):
    s.heading("histories that chance made")
    chance = random.Random(4)
    for _ in range(150):
        s.add(some_job(chance))


def small_jobs():
    s = Lines()
    for part in (worked, stops, operands, joins, cuts, searches, histories):
        part(s)
    return s


# Jobs in files of their own.


def weeks(count):
    """So many days, from a Monday on."""
    return [1 + day % 7 for day in range(count)]


def full_size():
    """A job of 32,768 bytes. It takes a full tray and fills it a second time in part; its last command is cut short."""
    job = take(weeks(MOST_TRAY))
    number = int(lines(job)[0].split()[1])
    job += command("F", number, 0, 8186, 0, 8192) + command("F", number, 1, 4096, 0, 8191)
    job += command("K", number, 700, 700) + command("J", number, 1)
    job += take([9] * ((MOST_BYTES - len(job) - 6) // 3))
    job += command("F", number, 0, 7, 0, 13)[: MOST_BYTES - len(job)]
    assert len(job) == MOST_BYTES and lines(job)[-1].startswith("job stopped at 327")
    return job


def tray_overfull():
    """A tray that is full, and one glyph more; a job that would go on."""
    job = take([5]) + b"".join(command("C", glyph) for glyph in weeks(MOST_TRAY))
    more = job + command("C", 5) + command("T")
    assert lines(more) == ["T 1", f"job stopped at {len(job)}"]
    return more


def tray_refused():
    """A full tray whose strip needs too many rows. The tray is empty afterwards, and the shelf as it was."""
    chance = random.Random(5)
    job = take([chance.randrange(2) for _ in range(MOST_TRAY)]) + b"T" + take([1, 0]) + command("J", 3, 4)
    assert lines(job) == ["T refused 5", "T 0", "T 3", "J refused 6"]
    return job


def shelf_full():
    """As many glyphs as the shelf has rows, each taken alone; then what a full shelf still answers, and what not."""
    job = b"".join(take([glyph]) for glyph in range(100, 100 + MOST_ROWS))
    then = [
        (take([99]), "T refused 5"),
        (b"T", "T 0"),
        (take([600]), "T 501"),
        (take([100, 101]), "T refused 5"),
        (take([100, 100]), "T refused 5"),
        (take([1123]), "T 1024"),
        (command("J", 1, 2), "J refused 5"),
        (command("J", 1, 1), "J refused 5"),
        (command("J", 1024, 0), "J 1024"),
        (command("J", 0, 1), "J 1"),
        (command("J", 1025, 1), "J refused 6"),
        (command("K", 7, 0, 1), "K 7"),
        (command("K", 7, 0, 0), "K 0"),
        (command("K", 7, 0, 2), "K refused 7"),
        (command("K", 1025, 0, 1), "K refused 6"),
        (command("F", 1024, 0, 1, 0, 1), "F 0 0 1"),
        (command("F", 1025, 0, 1, 0, 1), "F refused 7"),
        (take([100]), "T 1"),
    ]
    job += b"".join(part for part, _ in then)
    assert lines(job)[MOST_ROWS:] == [told for _, told in then]
    return job


def shelf_nearly_full():
    """Four rows are left: what needs more leaves none behind, and what needs them has them."""
    job = b"".join(take([glyph]) for glyph in range(1, 1021))
    then = [
        (take([2001, 2002, 2003, 2004, 2005]), "T refused 5"),
        (b"T", "T 0"),
        (take([2001, 2002, 2003]), "T refused 5"),
        (take([1, 2, 3, 4, 5, 6]), "T refused 5"),
        (command("J", 1021, 1), "J refused 6"),
        (take([2001, 2002]), "T 1023"),
        (take([2001, 2002, 2001]), "T 1024"),
        (command("J", 1023, 1021), "J 1024"),
        (command("J", 1024, 1), "J refused 5"),
        (command("K", 1024, 0, 2), "K 1023"),
        (command("K", 1024, 1, 2), "K refused 5"),
        (command("F", 1024, 0, 1, 2, 1), "F 2 0 1"),
        (take([2001, 2002, 2001]), "T 1024"),
        (take([2002, 2001]), "T refused 5"),
    ]
    job += b"".join(part for part, _ in then)
    assert lines(job)[1020:] == [told for _, told in then]
    return job


FILES = {
    "full_size": full_size,
    # No job prints more bytes.
    "longest_printout": lambda: b"T" * MOST_BYTES,
    "shelf_full": shelf_full,
    "shelf_nearly_full": shelf_nearly_full,
    "too_long": lambda: b"T" * (MOST_BYTES + 1),
    "tray_overfull": tray_overfull,
    "tray_refused": tray_refused,
}


def main():
    crate = Path(__file__).resolve().parent.parent / "crates" / "job_cases"
    data = crate / "data"
    for name, make in FILES.items():
        job = make()
        (data / f"{name}.job").write_bytes(job)
        (data / f"{name}.out").write_bytes(printed(job))
    count, others = differing(data)
    assert not others, others
    (data / "names.txt").write_text("".join(f"{path.stem}\n" for path in sorted(data.glob("*.job"))))
    small = small_jobs()
    (data / "small.txt").write_text("".join(f"{text}\n" for text in small.text))
    out = [f"jobs in files: {count} of {count} agree", f"jobs in lines: {small.count} of {small.count} agree"]
    (crate / "stdout").write_text("".join(f"{text}\n" for text in out))


if __name__ == "__main__":
    main()
