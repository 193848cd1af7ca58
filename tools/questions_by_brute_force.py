#!/usr/bin/env python3
"""Answers questions about strips by brute force, from the definitions alone.

It shares no code and no idea with the crates: places, overlaps and periods are found by comparing
slices one by one, and only then is the list of what was found told as a progression.

  questions_by_brute_force.py < LINES            what strip_ask has to print for these lines
  questions_by_brute_force.py layered            the cases of crates/question_cases/data/layered.txt
  questions_by_brute_force.py check FILE..       compares the answers in files of cases with its own

A case is `question | codes | arguments | answer`, or with the layers between the strip and the
question, from the strip outwards, `question | codes | layers | arguments | answer`. Layers are a window,
then a reversal, each at most once; a comma stands where the same comes again on top of them.
"""
import random
import sys

MAX_CODES = 65535
BLANKS = b" \t\r"
DIGITS = b"0123456789"


class NotUnderstood(Exception):
    pass


# ---- the definitions -------------------------------------------------------------------------------

def inside(codes, start, length):
    return start + length <= len(codes)


def told(numbers):
    """An ascending list as first, step and count."""
    if not numbers:
        return "none"
    step = numbers[1] - numbers[0] if len(numbers) > 1 else 0
    assert numbers == [numbers[0] + k * step for k in range(len(numbers))], numbers
    return f"{numbers[0]} {step} {len(numbers)}"


def places(codes, p, n, f, m):
    if not inside(codes, p, n) or not inside(codes, f, m):
        return "refused 7"
    if m >= 2 * n:
        return "refused 8"
    pattern = codes[p:p + n]
    return told([i for i in range(f, f + m - n + 1) if codes[i:i + n] == pattern])


def overlaps(codes, a, n, b, m, d):
    if not inside(codes, a, n) or not inside(codes, b, m):
        return "refused 7"
    if d == 0:
        return "refused 9"
    first, second = codes[a:a + n], codes[b:b + m]
    sizes = range(d, min(2 * d - 1, n, m) + 1)
    return told([s for s in sizes if second[m - s:] == first[:s]])


def periods(codes, a, n):
    if not inside(codes, a, n):
        return "refused 7"
    if n == 0:
        return "refused 10"
    part = codes[a:a + n]
    found = [p for p in range(1, n + 1) if part[p:] == part[:n - p]]
    records = []
    for t in reversed(range(16)):
        in_range = [p for p in found if 2 ** t <= n - p < 2 ** (t + 1)]
        if in_range:
            records.append(told(in_range))
    records.append(told([p for p in found if p == n]))
    return " / ".join(records)


QUESTIONS = {"places": (places, 4), "overlaps": (overlaps, 5), "periods": (periods, 2)}


# ---- lines -----------------------------------------------------------------------------------------

def number(word, bits):
    if any(byte not in DIGITS for byte in word) or int(word) >= 2 ** bits:
        raise NotUnderstood
    return int(word)


def window(codes, words):
    if len(words) < 2:
        raise NotUnderstood
    start, length = number(words[0], 64), number(words[1], 64)
    return codes[start:start + length], words[2:]


def ask(codes, words):
    if words[0] == b"window":
        codes, words = window(codes, words[1:])
    if words and words[0] == b"reversed":
        codes, words = codes[::-1], words[1:]
    name = words[0].decode("latin-1") if words else ""
    if name not in QUESTIONS:
        raise NotUnderstood
    question, count = QUESTIONS[name]
    numbers = [number(word, 64) for word in words[1:]]
    if len(numbers) != count:
        raise NotUnderstood
    return f"{name} {question(codes, *numbers)}"


def transcript(text):
    lines = text.split(b"\n")
    if lines[-1] == b"":
        lines.pop()
    codes, printed = [], []
    for i, line in enumerate(lines, 1):
        for blank in BLANKS:
            line = line.replace(bytes([blank]), b" ")
        words = [word for word in line.split(b" ") if word]
        try:
            if not words:
                continue
            if words[0] == b"strip":
                codes = [number(word, 32) for word in words[1:]]
            else:
                printed.append(ask(codes[:MAX_CODES], words))
        except NotUnderstood:
            printed.append(f"line {i} not understood")
    return "".join(line + "\n" for line in printed)


# ---- cases -----------------------------------------------------------------------------------------

def through(codes, layers):
    """The codes as they are seen through layers, given as a list of words from the strip outwards."""
    while layers:
        if layers[0] == ",":
            layers = layers[1:]
        elif layers[0] == "reversed":
            codes, layers = codes[::-1], layers[1:]
        else:
            assert layers[0] == "window", layers
            start, length = int(layers[1]), int(layers[2])
            codes, layers = codes[start:start + length], layers[3:]
    return codes


def answer(name, codes, layers, arguments):
    question, count = QUESTIONS[name]
    assert len(arguments) == count, arguments
    return question(through(codes, layers), *arguments)


def fibonacci(random, length):
    a, b = [0], [0, 1]
    while len(b) < length:
        a, b = b, b + a
    return b[:length]


def thue_morse(random, length):
    return [bin(i).count("1") % 2 for i in range(length)]


def power(random, length):
    root = [random.randrange(3) for _ in range(random.randint(1, 6))]
    return (root * length)[:length]


def near_power(random, length):
    codes = power(random, length)
    if codes:
        codes[random.randrange(length)] ^= 1
    return codes


def runs(random, length):
    codes = []
    while len(codes) < length:
        codes += [random.randrange(2)] * random.randint(1, 7)
    return codes[:length]


def noise(random, length):
    return [random.choice([0, 1, 7, 65535, 4294967295]) for _ in range(length)]


MAKERS = [fibonacci, thue_morse, power, near_power, runs, noise]


def make_window(random, length):
    kind = random.randrange(12)
    if kind == 0:
        return ["window", str(length + random.randint(0, 3)), str(random.randint(0, 4))]
    if kind == 1:
        return ["window", str(random.randint(0, length)), str(2 ** 64 - 1)]
    start = random.randint(0, length // 3)
    return ["window", str(start), str(random.randint((length - start) // 2, length - start + 2))]


PILES = ["w", "r", "wr", "w", "r", "wr", "w,w", "r,w", "wr,w", "r,r", "r,wr", "w,wr", "wr,r", "wr,wr"]


def make_pile(random, pile, length):
    layers = []
    for kind in pile:
        if kind == "r":
            layers.append("reversed")
        elif kind == "w":
            layers += make_window(random, length)
            length = len(through([0] * length, layers[-3:]))
        else:
            layers.append(",")
    return layers


def make_fragment(random, length):
    if random.randrange(20) == 0:
        return [random.randint(0, length + 2), random.randint(0, length + 2)]
    start = random.randint(0, length // 2)
    return [start, random.randint(min(1, length), length - start)]


def make_arguments(random, name, length):
    first = make_fragment(random, length)
    if name == "periods":
        return [0, length] if random.randrange(3) == 0 else first
    if name == "places":
        if random.randrange(8) == 0 or first[1] == 0:
            return first + make_fragment(random, length)
        room = min(2 * first[1] - 1, length)
        size = random.randint(min(first[1], room), room)
        return first + [random.randint(0, length - size), size]
    if random.randrange(2) == 0:
        first = [0, length]
    second = first if random.randrange(2) == 0 else make_fragment(random, length)
    if random.randrange(12) == 0:
        return first + second + [0]
    return first + second + [random.randint(1, max(1, min(first[1], second[1]) // 2))]


def layered():
    """Cases over layers, the same ones at each call."""
    chance = random.Random(65535)
    for pile in PILES * 2:
        for name in sorted(QUESTIONS):
            for maker in MAKERS:
                length = chance.choice([0, 2, 7, 8, 13, 16, 21, 34, 40, 55])
                codes = maker(chance, length)
                layers = make_pile(chance, pile, length)
                arguments = make_arguments(chance, name, len(through(codes, layers)))
                columns = [[name], codes, layers, arguments, [answer(name, codes, layers, arguments)]]
                yield " | ".join(" ".join(map(str, column)) for column in columns)


def check(path):
    wrong = 0
    with open(path) as lines:
        for i, line in enumerate(lines, 1):
            columns = [column.split() for column in line.split("|")]
            if len(columns) == 4:
                columns.insert(2, [])
            name, codes, layers, arguments, expected = columns
            mine = answer(name[0], list(map(int, codes)), layers, list(map(int, arguments)))
            if mine != " ".join(expected):
                wrong += 1
                print(f"{path} line {i}: {' '.join(expected)}, but by brute force {mine}")
    print(f"{path}: {wrong} of {i} cases differ")
    return wrong


def main(words):
    if hasattr(sys, "set_int_max_str_digits"):
        sys.set_int_max_str_digits(0)
    if words == ["layered"]:
        for line in layered():
            print(line)
        return 0
    if words[:1] == ["check"]:
        return min(1, sum(check(path) for path in words[1:]))
    if words:
        print(__doc__, file=sys.stderr)
        return 2
    sys.stdout.write(transcript(sys.stdin.buffer.read()))
    return 0


if __name__ == "__main__":
    sys.exit(main(sys.argv[1:]))
