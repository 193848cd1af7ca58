#!/usr/bin/env python3
"""Brings the repository's own definitions and lemmas to the spelling of its language's library: words and lemmas in
snake case, facts and types in camel case. Names that the check makes (`returns-in_None`) and names that are brought in
from the library keep their dashes.

    python3 tools/history/respell.py [--list] [FOLDER]     turns crates/ and the code spans of README.md and docs/ below FOLDER

It goes by text. With --list nothing is written: it prints each name with its new spelling. A name whose new spelling a
file has already for something else, as a function that is called like the definition in its contract, is printed as
`falls together`: the two are told apart by hand.
"""

import re
import sys
from pathlib import Path

NAME = re.compile(r"""[A-Za-z_][A-Za-z0-9_']*(?:-[A-Za-z0-9_']+)+""")
WORD = re.compile(r"""[A-Za-z_][A-Za-z0-9_']*(?:-[A-Za-z0-9_']+)*""")
USE = re.compile(r"\buse\s+([^\s;{]+?)(?:\.?\{([^}]*)\})?(?:\s+as\s+\S+)?\s*(?:;|$)", re.M)
QUIET = {
    ".antt": re.compile(r'"(?:[^"\\\n]|\\.)*"|(?<![^\s(){}.;,])--[^\n]*'),
    ".rt": re.compile(r'"(?:[^"\\]|\\.)*"|//[^\n]*'),
}
SPAN = re.compile(r"`[^`\n]+`")
HEADS = ("goal", "c", "w", "l", "g")
HOLDERS = ("args", "initial", "fn", "new", "auto", "ranges")
# A variable that another script had spelled like a fact, and a lemma about what is called `get_or` today.
RENAMED = {"Has-All": "has_all", "getD-back": "get_or_back"}


def files(root):
    return sorted(
        p
        for p in (root / "crates").rglob("*")
        if p.suffix in QUIET and "out" not in p.relative_to(root).parts
    )


def crates(root):
    return {p.parent.name for p in (root / "crates").glob("*/src")}


def pieces(text, kind):
    """The text, cut into code and what is quiet (comments and strings)."""
    place = 0
    for found in QUIET[kind].finditer(text):
        yield True, text[place : found.start()]
        yield False, found[0]
        place = found.end()
    yield True, text[place:]


def brought_in(text, own):
    """The names that a file brings in from libraries."""
    names = set()
    for path, items in USE.findall(text):
        steps = path.split(".")
        if items and not (steps[0] == "Rattle" and len(steps) > 1 and steps[1] in own):
            names |= {item.split(" as ")[0].strip() for item in items.split(",")}
    return names


def made(path, text):
    """The names of a function's answers and invariants, which the check makes."""
    if path.name not in ("Answers.antt", "Invariants.antt"):
        return set()
    names = set(re.findall(r"(?m)^(?:abbrev )?pub (\S+) : goal\.", text))
    for items in re.findall(r"\.Goals\.\{([^}]*)\}", text):
        names |= set(re.split(r"[,+\s]+", items))
    return names


def is_made(code, start):
    """Whether the name at a place of a proof's text stands behind the name of what the check makes."""
    before = re.search(r"(?:([A-Za-z_]\w*)\.)?([A-Za-z_]\w*)\.$", code[:start])
    if not before:
        return False
    return before[2] in HEADS or (before[1] in HEADS and before[2] in HOLDERS)


def spelled(name):
    if name in RENAMED:
        return RENAMED[name]
    if name[0].isupper():
        return "".join(part[0].upper() + part[1:] for part in name.split("-"))
    return name.replace("-", "_")


def turned(path, text, own, table):
    """The text with its names turned. Names go into the table with their new spellings."""
    kept = brought_in(text, own) | made(path, text)
    proof = path.name in ("Answers.antt", "Invariants.antt")

    def one(code):
        def new(found):
            name = found[0]
            behind_dot = code[: found.start()].endswith(".")
            if proof and behind_dot and (is_made(code, found.start()) or name not in table):
                return name
            if not behind_dot and name in kept:
                return name
            if behind_dot and name not in table and name in kept:
                return name
            table[name] = spelled(name)
            return table[name]

        return NAME.sub(new, code)

    out = []
    for is_code, piece in pieces(text, path.suffix):
        if is_code:
            out.append(one(piece))
        elif piece.startswith('"'):
            out.append(piece)
        else:
            out.append(SPAN.sub(lambda span: NAME.sub(lambda n: table.get(n[0], n[0]), span[0]), piece))
    return "".join(out)


def collisions(path, text, table):
    code = "".join(piece for is_code, piece in pieces(text, path.suffix) if is_code)
    words = set(WORD.findall(code))
    seen = {}
    for word in sorted(words):
        new = table.get(word, word)
        if new in seen:
            yield seen[new], word, new
        seen[new] = word


def main(argv):
    root = Path(next((a for a in argv if not a.startswith("--")), "."))
    own = crates(root)
    paths = files(root)
    texts = {p: p.read_text() for p in paths}
    table = {}
    # Definitions and lemmas first, so that what proofs say of them is known when proofs are turned.
    order = sorted(paths, key=lambda p: p.name in ("Answers.antt", "Invariants.antt"))
    for p in order:
        turned(p, texts[p], own, table)
    bad = [(p, *found) for p in paths for found in collisions(p, texts[p], table)]
    for p, one, other, new in bad:
        print(f"falls together: {one} and {other}, as {new}, in {p.relative_to(root)}")
    if "--list" in argv:
        for name in sorted(table):
            print(f"{name} -> {table[name]}")
        return 0
    for p in order:
        p.write_text(turned(p, texts[p], own, table))
    for page in [root / "README.md", *sorted((root / "docs").glob("*.md"))]:
        if page.exists():
            page.write_text(SPAN.sub(lambda s: NAME.sub(lambda n: table.get(n[0], n[0]), s[0]), page.read_text()))
    return 0


if __name__ == "__main__":
    raise SystemExit(main(sys.argv[1:]))
