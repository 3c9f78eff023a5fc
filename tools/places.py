#!/usr/bin/env python3
"""Counts the places in crates/*/src where an older form of the language stands: tools/places.py [-v] [FOLDER]

docs/DESIGN-PASS.md says what each number counts. -v prints the places too."""
import collections
import glob
import os
import re
import sys

args = [it for it in sys.argv[1:] if it != "-v"]
verbose = "-v" in sys.argv[1:]
root = args[0] if args else os.path.join(os.path.dirname(__file__), "..")
FILES = sorted(glob.glob(f"{root}/crates/*/src/**/*.rt", recursive=True))
CODE = [it for it in FILES if "/door/" not in it]


def where(file, at, text):
    return f"{os.path.relpath(file, root)}:{text.count(chr(10), 0, at) + 1}"


def stripped(text):
    """The text with its comments blanked, so that places keep their lines."""
    return re.sub(r"//[^\n]*", lambda it: " " * len(it[0]), text)


TEXTS = {it: stripped(open(it, encoding="utf-8").read()) for it in FILES}


def found(pattern, files=None, flags=re.M):
    return [
        (where(file, it.start(), TEXTS[file]), " ".join(it[0].split()))
        for file in files or CODE
        for it in re.finditer(pattern, TEXTS[file], flags)
    ]


FN = re.compile(
    r"^( *)(?:pub(?:\(crate\))? )?(?:extern \"C\" )?fn (\w+)(?:<[^>(]*>)?\((.*?)\)(?: -> ([^\n{]*?))?\s*\n?((?: *(?:requires|ensures)[^\n]*\n(?: {8}[^\n]*\n)*)*) *\{\n(.*?)^\1\}",
    re.M | re.S,
)


def functions(files=None):
    for file in files or CODE:
        for it in FN.finditer(TEXTS[file]):
            yield file, it


def row(point, says, places):
    print(f"{point:3} {len(places):4}  {says}")
    if verbose:
        for it in places:
            print(f"          {it[0]}  {it[1][:110]}")


# 1
row("1a", "enums of a value and nothing else", found(r"^(?:pub(?:\(crate\))? )?enum (\w+) \{\n(?: +\w+[({][^\n]*\n +\w+,\n| +\w+ \{[^\n]*\n +\w+,\n| +\w+,\n +\w+[({][^\n]*\n)\}"))
row("1b", "structs of a number and what stands beside it", found(r"struct \w+ \{\n(?:    pub(?:\(crate\))? |    )number: u32,"))
row("1c", "refusals answered as numbers", found(r"return (?:number|[1-9]|1[0-9]|2[0-8]|refused\(\w[^;]*\)|rounds::refused\(\w[^;]*\)|answer::refused\(\w[^;]*\));"))
row("1d", "kinds handed on as numbers", found(r"\bkind: u(?:8|32|size)\b"))
row("1e", "names for numbers that are cases", found(r"^(?:pub )?const (?:OF_\w+|STOPPED|MAY_NOT_\w+|DOES_NOT_FORWARD|BARRED): u32"))
row("1f", "a flag with a value beside it", found(r"\bgiven: bool,\s+bytes: &\[u8\]|\bgiven: bool,\s+state: &\[u8\]"))

# 2
bodies = collections.defaultdict(list)
for file, it in functions(FILES):
    body = " ".join(it[6].split())
    if body.count(";") + body.count("{") < 1:
        continue
    key = re.sub(r"\b\d+\b", "N", re.sub(r"\b(?:u8|u16|u32|u64|usize)\b", "T", body))
    key = re.sub(rf"\b{it[2]}\b", "F", key)
    bodies[key].append((where(file, it.start(), TEXTS[file]), it[2]))
row("2a", "functions equal but for types and numbers", [x for it in bodies.values() if len(it) > 1 for x in it])
row("2b", "functions that widen one number each", found(r"pub fn (?:wide|wide16|word)\(x: u\d+\)"))

# 3
row("3a", "loops that count an index by hand", found(r"^ *while [^\n{]*\b(?:i|n|p|taken)\b [<>] [^\n]*\{"))
row("3b", "loops over a range that walk one list", [
    (where(file, it.start(), TEXTS[file]), " ".join(it[0].split())[:90])
    for file in FILES
    for it in re.finditer(r"^( *)for (\w+) in [^\n]*\.\.[^\n]*\{\n(.*?)^\1\}", TEXTS[file], re.M | re.S)
    if len(set(re.findall(rf"(\w+)\[[^\]]*\b{it[2]}\b[^\]]*\]", it[3]))) >= 1
    and not re.search(rf"\b{it[2]}\b", re.sub(rf"\w+\[{it[2]}\]", "", it[3]))
])
row("3c", "loops over a range, all", found(r"^ *for \w+ in [^\n]*\.\.", FILES))
row("3d", "loops with while, all", found(r"^ *while ", FILES))

# 4
row("4a", "types that derive Clone and Copy alone", found(r"^#\[derive\(Clone, Copy\)\]", FILES))
row("4b", "numbers widened by areas", found(r"areas::(?:wide|wide16|word)\(", FILES))
row("4c", "numbers put together of bytes by hand", found(r"256 \* (?:\(\w|areas)", FILES))

# 5
clauses = collections.defaultdict(list)
for file, it in functions(FILES):
    for said in re.findall(r"requires[^{\n]*\{ (.*?) \}\n", it[5] or ""):
        for part in re.split(r" × ", said):
            part = re.sub(r"^\((.*)\)$", r"\1", part.strip())
            clauses[part].append((where(file, it.start(), TEXTS[file]), f"{it[2]}: {part}"))
lengths = [x for part, it in clauses.items() if part.startswith("length ") for x in it]
row("5a", "contracts that ask for a length", lengths)
row("5b", "other clauses asked for by three functions or more", [x for part, it in clauses.items() if len(it) >= 3 and not part.startswith("length ") for x in it])
PARTS = r"\b(?:loads|roles?|ports|permissions|peers|barred|events|core): &?(?:mut )?(?:Loads|\[|Core)"
row("5c", "functions that take two parts of a plan or more", [
    (where(file, it.start(), TEXTS[file]), it[2]) for file, it in functions(FILES) if len(re.findall(PARTS, it[3])) >= 2
])
row("5d", "functions that take a plan by value", [
    (where(file, it.start(), TEXTS[file]), it[2]) for file, it in functions(FILES) if re.search(r"\b(?:plan: Plan|core: Core)\b", it[3])
])

# 6
row("6a", "an area with a count of what is in it beside", [
    (where(file, it.start(), TEXTS[file]), it[2]) for file, it in functions() if "told: &mut [u32]" in it[3] and "count: usize" in it[3]
])
row("6b", "a text with the place where it goes on beside", [
    (where(file, it.start(), TEXTS[file]), it[2]) for file, it in functions() if re.search(r"(?:text|page|area): &mut \[u8\]", it[3]) and "at: usize" in it[3]
])

# 7
row("7", "a switch on which of two to take", found(r"\bhome: bool\b|\bgiven: bool\b", FILES))

# 8
lines = collections.Counter()
for file in glob.glob(f"{root}/crates/*/proofs/**/*.antt", recursive=True):
    with open(file, encoding="utf-8") as it:
        lines["Answers" if file.endswith("/Answers.antt") else "Invariants" if file.endswith("/Invariants.antt") else "lemmas"] += sum(1 for _ in it)
print("8        proof lines: " + ", ".join(f"{name} {lines[name]}" for name in ("Answers", "Invariants", "lemmas")))
