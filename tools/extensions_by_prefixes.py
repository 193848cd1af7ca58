#!/usr/bin/env python3
"""What crates/strip_speed has to print: sums of the common lengths of what
follows one place (or comes before it, going back) with what follows (comes before) every place, each read off
the common prefixes of a list with itself."""

LENGTH = 65_535
PLACES = [0, 7, 4_096]


def height(place):
    return place * 514_229 // 832_040


PATTERNS = {
    "same": lambda place: 0,
    "weeks": lambda place: place % 7,
    "slope": lambda place: 1 if height(place) < height(place + 1) else 0,
    "parities": lambda place: bin(place).count("1") % 2,
}


def prefixes(s):
    """The common length of s with each of its suffixes, the whole among them."""
    z, left, right = [len(s)] + [0] * (len(s) - 1), 0, 0
    for i in range(1, len(s)):
        n = min(right - i, z[i - left]) if i < right else 0
        while i + n < len(s) and s[n] == s[i + n]:
            n += 1
        z[i] = n
        if i + n > right:
            left, right = i, i + n
    return z


def total(s, place):
    """The sum over all places of what agrees with what follows the one given."""
    rest = s[place:]
    return sum(min(n, len(rest)) for n in prefixes(rest + [-1] + s)[len(rest) + 1:])


for name, cell in PATTERNS.items():
    strip = [cell(place) for place in range(LENGTH)]
    print(f"{name}: {LENGTH} cells")
    for place in PLACES:
        print(f"from {place}: ahead {total(strip, place)}, behind {total(strip[::-1], place)}")
