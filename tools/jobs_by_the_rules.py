"""What a job prints, worked out from docs/JOBS.md and docs/RULES.md by plain brute force.

The shelf is the model of shelf_by_the_rules.py; where a pattern stands is found by looking at every place.
Nothing of the programs is used.

    python3 tools/jobs_by_the_rules.py print < JOB   prints what the job prints
    python3 tools/jobs_by_the_rules.py compare DIR   compares each DIR/NAME.job with the printout DIR/NAME.out
"""

import sys
from pathlib import Path

from shelf_by_the_rules import Model, Refused

MOST_BYTES = 32768
MOST_TRAY = 8192
WORK_PLACES = 8192

# How many operands of two bytes each command has.
OPERANDS = {"C": 1, "T": 0, "J": 2, "K": 3, "F": 5}


def command(letter, *operands):
    """The bytes of a command."""
    assert len(operands) == OPERANDS[letter], (letter, operands)
    return letter.encode() + b"".join(operand.to_bytes(2, "big") for operand in operands)


def take(glyphs):
    """The bytes that put glyphs on the tray and take it."""
    return b"".join(command("C", glyph) for glyph in glyphs) + command("T")


def commands(job):
    """The commands of a job with their places: (place, letter, operands). At an unknown letter or a command cut
    short the operands are None, and no command follows."""
    at = 0
    while at < len(job):
        letter = chr(job[at])
        end = at + 1 + 2 * OPERANDS.get(letter, 0)
        if letter not in OPERANDS or end > len(job):
            yield at, letter, None
            return
        yield at, letter, [job[place] * 256 + job[place + 1] for place in range(at + 1, end, 2)]
        at = end


def places(codes, start, size, field_start, field_size):
    """First, step and count of all places of a pattern in a field, None where there is none."""
    if start + size > len(codes) or field_start + field_size > len(codes):
        raise Refused(7)
    if field_size >= 2 * size:
        raise Refused(8)
    pattern = codes[start : start + size]
    last = field_start + field_size - size
    found = [at for at in range(field_start, last + 1) if codes[at : at + size] == pattern]
    if not found:
        return None
    step = found[1] - found[0] if len(found) > 1 else 0
    assert found == [found[0] + turn * step for turn in range(len(found))], "the places make no progression"
    return found[0], step, len(found)


def answer(model, tray, letter, operands):
    """What T, J, K or F answers."""
    if letter == "T":
        return model.take("glyphs", WORK_PLACES, [(glyph,) for glyph in tray])
    if letter == "J":
        return model.join(WORK_PLACES, *operands)
    if letter == "K":
        return model.cut(WORK_PLACES, *operands)
    number, *fragments = operands
    found = places(model.strip(number) if model.known(number) else [], *fragments)
    return "none" if found is None else "{} {} {}".format(*found)


def line(model, tray, letter, operands):
    """The line that T, J, K or F prints."""
    try:
        return f"{letter} {answer(model, tray, letter, operands)}"
    except Refused as refused:
        return f"{letter} refused {refused.args[0]}"


def lines(job):
    """All lines that a job prints."""
    if len(job) > MOST_BYTES:
        return ["job too long"]
    model = Model("glyphs")
    tray = []
    told = []
    for at, letter, operands in commands(job):
        if operands is None or (letter == "C" and len(tray) == MOST_TRAY):
            return told + [f"job stopped at {at}"]
        if letter == "C":
            tray.append(operands[0])
            continue
        told.append(line(model, tray, letter, operands))
        if letter == "T":
            tray = []
    return told


def printed(job):
    """All bytes that a job prints."""
    return "".join(f"{told}\n" for told in lines(job)).encode()


def differing(folder):
    """How many jobs a folder has, and the names of those whose printout beside them differs."""
    jobs = sorted(Path(folder).glob("*.job"))
    return len(jobs), [path.stem for path in jobs if printed(path.read_bytes()) != path.with_suffix(".out").read_bytes()]


def main():
    match sys.argv[1:]:
        case ["print"]:
            sys.stdout.buffer.write(printed(sys.stdin.buffer.read()))
        case ["compare", folder]:
            count, others = differing(folder)
            print("".join(f"{name} differs\n" for name in others) + f"{count - len(others)} of {count} jobs agree")
            sys.exit(1 if others else 0)
        case _:
            sys.exit(__doc__)


if __name__ == "__main__":
    main()
