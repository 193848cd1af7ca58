"""Lists the places in src/ that today's forms may say better, a point at a time.

    python3 tools/history/places.py [POINT] [FOLDER]

FOLDER is the repository's top (this one). For each point it prints the lines to look at and how many there are;
docs/history/DESIGN-PASS.md says what became of them. A line is a place to look at, not a fault.
"""
import itertools
import pathlib
import re
import sys

CLAUSE = re.compile(r"^\s*(requires|ensures|ghost)\b")

# point 1: own enums, success flags and pairs with a flag, options and results turned by hand, number codes
ONE = [
    r"\benum [A-Z]",
    r"-> (bool|\(bool)",
    r"if let Err\(|let (Ok|Some)\(.*\) = .*else \{",
    r"^\s*(None|Err\(.*\)|Ok\(.*\)) => (None|Some|Ok|Err|return|unreachable|0\b|Self::BLANK|Glyph|agreeing|\(|number\b|text\b)",
    r"kind: u8|\bNUMBER\b|fn (kind_number|number|blank_cell)\(",
]
# point 3: loops, and counters moved by hand
THREE = [r"^\s*(while|loop|for) ", r"(\+|-)= 1\b|saturating_add\(1\)"]
# point 4: impls of the library's traits by hand, conversions and values written out
FOUR = [
    r"^impl(<.*>)? (fmt::|From|TryFrom|PartialEq|Eq|Ord|PartialOrd|Clone|Default|Hash|Drop)",
    r"\bas (u8|u16|u32|u64|usize)\b",
    r"fn (same_|is_same|stands_with|spell|write_|sentence|number\(self)",
    r"^\s*(first|step|count|run|agree|start|round|length): 0,",
]
# point 6: arrays, buffers that are handed on with a length, lists searched or filled by hand
SIX = [r"\[[A-Za-z]+; [A-Z_a-z0-9]+\]", r"\b(size|count|used|from|len|capacity): usize", r"let mut (used|read|write|filled|times|size) =", r"\[(index|i|n|used|read|write|times)( [-+] [a-z0-9]+)*\]"]
# point 7: what to run, chosen by a value or by name
SEVEN = [r"\bFn(Mut|Once)?\(|\bfn\(|\bdyn\b", r"if (name|kind|word|question) == |spells\(word"]


def sources(top):
    for path in sorted(top.glob("crates/*/src/**/*.rt")):
        yield path.relative_to(top), path.read_text().split("\n")


def matching(top, patterns):
    for path, lines in sources(top):
        for number, line in enumerate(lines, 1):
            if line.lstrip().startswith("//") or CLAUSE.match(line):
                continue
            if any(re.search(pattern, line) for pattern in patterns):
                yield f"{path}:{number}: {line.strip()}"


def functions(top):
    """Each function with a body: where it is, its name, its parameters, its body."""
    for path, lines in sources(top):
        text = "\n".join(line for line in lines if not line.lstrip().startswith("//"))
        for found in re.finditer(r"\bfn (\w+)(<[^(]*>)?\(([^)]*)\)", text):
            opened = text.find("{\n", found.end())
            while opened > 0 and CLAUSE.match(text[text.rfind("\n", 0, opened) + 1 : opened]):
                opened = text.find("{\n", opened + 1)
            if opened < 0 or ";" in text[found.end() : opened].split("{")[0]:
                continue
            depth, end = 0, opened
            for end in range(opened, len(text)):
                depth += {"{": 1, "}": -1}.get(text[end], 0)
                if depth == 0:
                    break
            yield path, found.group(1), found.group(3), text[opened : end + 1]


def twins(top):
    """Functions whose bodies are the same but for names and numbers."""
    shapes = {}
    for path, name, _, body in functions(top):
        words = re.findall(r"\"[^\"]*\"|\w+|[^\w\s]", body)
        keep = {"if", "else", "match", "while", "for", "let", "return", "mut", "in"}
        shape = " ".join(w if w in keep or not re.match(r"[\w\"]", w) else "_" for w in words)
        if len(words) >= 12:
            shapes.setdefault(shape, []).append(f"{path}: {name}")
    for alike in shapes.values():
        if len(alike) > 1:
            yield "; ".join(alike)


def repeated(top):
    """Clauses that stand in three functions or more of a crate, and parameters that travel together in three or more."""
    clauses, pairs = {}, {}
    for path, lines in sources(top):
        for line in lines:
            if re.match(r"\s*(requires|ensures)\b", line):
                clause = re.sub(r"^\s*(requires|ensures) (\w+ )?", "", line).strip()
                clauses.setdefault((path.parts[1], clause), []).append(line)
    for path, _, parameters, _ in functions(top):
        names = re.findall(r"\b(\w+): [^,]+", parameters)
        for pair in itertools.combinations([n for n in names if n not in ("heap", "rt", "f", "c")], 2):
            pairs.setdefault((path.parts[1], pair), []).append(path)
    for (crate, clause), found in sorted(clauses.items()):
        if len(found) >= 3:
            yield f"{crate}: {len(found)} times {clause}"
    for (crate, pair), found in sorted(pairs.items()):
        if len(found) >= 3:
            yield f"{crate}: {len(found)} functions take {pair[0]} and {pair[1]}"


def answers(top):
    """How many answers each crate's proof files give."""
    for crate in sorted(top.glob("crates/*")):
        files = sorted(crate.glob("proofs/**/Answers.antt"))
        given = sum(len(re.findall(r"^pub [\w+-]+ : goal\.", f.read_text(), re.M)) for f in files)
        lines = sum(len(f.read_text().split("\n")) for f in files)
        if files:
            yield f"{crate.name}: {given} answers in {len(files)} files of {lines} lines"


POINTS = {
    "1": lambda top: matching(top, ONE),
    "2": twins,
    "3": lambda top: matching(top, THREE),
    "4": lambda top: matching(top, FOUR),
    "5": repeated,
    "6": lambda top: matching(top, SIX),
    "7": lambda top: matching(top, SEVEN),
    "8": answers,
}


def main():
    chosen = [word for word in sys.argv[1:] if word in POINTS] or list(POINTS)
    folders = [word for word in sys.argv[1:] if word not in POINTS]
    top = pathlib.Path(folders[0] if folders else pathlib.Path(__file__).resolve().parents[2])
    for point in chosen:
        found = list(POINTS[point](top))
        print(f"point {point}: {len(found)}")
        for line in found:
            print(f"  {line}")


main()
