#!/usr/bin/env python3
"""Lists the places in crates/*/src that may stand in an older form, by eight points, and counts them.

    tools/places.py [FOLDER] [POINT]

FOLDER is a checkout (this one if none is given); with POINT, a number from 1 to 8, only the places of that point are listed.
A place is a candidate by its text alone: docs/DESIGN-PASS.md says of each what became of it.
"""
import collections
import pathlib
import re
import sys

COUNTED = re.compile(r"^\s*(?:'\w+: )?(for \w+ in [^{]*\.\.|while (?!let))")
ENUM = re.compile(r"^\s*(?:pub(?:\(crate\))? )?enum (\w+)")
FLAG = re.compile(r"let mut \w+ = (?:false|true);|^\s*(?:pub )?\w+: bool,$")
CHANGED = re.compile(r"fn \w+.*&mut .*-> bool")
NUMBER = re.compile(r"-> u8(?: \{)?$|refusal: u8")
BY_HAND = re.compile(
    r"fn \w*(?:equal|same|above|name|words|with_total|changed|refusal|exceeds|sign|tally)\w*[(<]|fn number\(self|fn new\(\) -> \w+ \{|Tally \{$"
)
ARRAY = re.compile(r"(?::|->|const \w+:|vec!\[in [\w.()]+;) ?&?(?:mut )?\[?\[[\w:<> ]+; ?\w+\]|\bat: usize")
TESTED = re.compile(r"^ *for [^{\n]* in [^{\n]*\{\n *(?:if|match) [^\n]*\{\n[^\n]*(?:return|\+= 1)", re.M)
SWITCH = re.compile(r"\bmatch (?:kind|by|wanted|self\.0|self)\b")
TYPE = re.compile(r"^\s*(?:pub(?:\(crate\))? )?(struct|enum) (\w+)")
ANSWER = re.compile(r"^pub \S+ : goal\.", re.M)
REQUIRES = re.compile(r"requires(?: \w+)? \{ (.*) \}")
COMMON = {"main", "run", "new"}
FN = re.compile(r"\bfn (\w+)(?:<[^(]*>)?\(([^)]*)\)", re.S)


def code(path):
    """The lines of a file with their numbers, without comments and ghost lines."""
    for number, line in enumerate(path.read_text().split("\n"), 1):
        bare = line.strip()
        if bare and not bare.startswith("//") and not bare.startswith("ghost"):
            yield number, line


def facts(text):
    """The parts of a clause, each with its names of parameters made alike."""
    for part in re.split(r" × ", text):
        part = part.strip("() ")
        part = re.sub(r"\b(units_of marks\.now|self\.\w+\.units|units|n|k)\b", "N", part)
        yield re.sub(r"\.(now|old|new)\b", "", part)


def own(text):
    """A file without the methods of traits and without tests, which have the names that they must have."""
    text = re.sub(r"^impl(?:<[^\n]*>)? [^\n]* for [^\n]*\{\n.*?^\}", "", text, flags=re.S | re.M)
    text = re.sub(r"^pub(?:\(crate\))? trait .*?^\}", "", text, flags=re.S | re.M)
    return re.sub(r"^#\[test\]\n.*?^\}", "", text, flags=re.S | re.M)


def parameters(text):
    found = [p.strip() for p in text.replace("\n", " ").split(",")]
    return [p.split(":")[0].replace("mut ", "").strip() for p in found if ":" in p]


def gather(root):
    places = collections.defaultdict(list)
    names = collections.defaultdict(list)
    asked = collections.defaultdict(list)
    together = collections.defaultdict(list)
    for path in sorted(root.glob("crates/*/src/**/*.rt")):
        where = str(path.relative_to(root / "crates"))
        test = any(word in where for word in ("tests/", "check/", "samples/"))
        derives = ""
        tested = False
        for number, line in code(path):
            if line.strip() == "#[test]":
                tested = True
                continue
            if tested and re.match(r"^\}", line):
                tested = False
            at = f"{where}:{number}: {line.strip()}"
            if line.strip().startswith("#[derive"):
                derives = line
            if ENUM.match(line) and "PartialEq" not in derives:
                places[1].append(at + "   [no derives but Clone, Copy]")
            if FLAG.search(line) or CHANGED.search(line) or NUMBER.search(line):
                places[1].append(at)
            if COUNTED.match(line):
                places[3].append(at)
            if BY_HAND.search(line) and not tested:
                places[4].append(at)
            if TYPE.match(line):
                if "PartialEq" not in derives:
                    places[4].append(at + "   [no derived equality]")
                derives = ""
            if ARRAY.search(line):
                places[6].append(at)
            if SWITCH.search(line):
                places[7].append(at)
            for clause in REQUIRES.findall(line):
                for fact in facts(clause):
                    asked[fact].append(f"{where}:{number}")
        for match in TESTED.finditer(path.read_text()):
            head = match.group(0).split("\n")[0]
            if not COUNTED.match(head):
                line = path.read_text()[: match.start()].count("\n") + 1
                places[3].append(f"{where}:{line}: {head.strip()}   [a test or a search]")
        text = own(path.read_text())
        for match in FN.finditer(text):
            if match.group(1) not in COMMON:
                names[match.group(1)].append(where)
            them = parameters(match.group(2))
            for pair in zip(them, them[1:]):
                together[pair].append(f"{where.split('/')[0]} {match.group(1)}")
    for name, files in sorted(names.items()):
        crates = {file.split("/")[0] for file in files}
        if len(files) > 1:
            places[2].append(f"{name}: {len(files)} in {', '.join(sorted(crates))}")
    for fact, lines in sorted(asked.items()):
        if len(lines) > 2:
            places[5].append(f"{fact}: in {len(lines)} clauses: {' '.join(lines)}")
    for pair, fns in sorted(together.items()):
        if len(set(fns)) > 2:
            places[5].append(f"{', '.join(pair)} side by side in {len(set(fns))} functions: {', '.join(sorted(set(fns)))}")
    for path in sorted(root.glob("crates/*/proofs/**/Answers.antt")):
        count = len(ANSWER.findall(path.read_text()))
        if count:
            places[8].append(f"{path.relative_to(root / 'crates')}: {count} answers")
    return places


def main():
    args = sys.argv[1:]
    root = pathlib.Path(args[0] if args and not args[0].isdigit() else pathlib.Path(__file__).resolve().parent.parent)
    wanted = [int(a) for a in args if a.isdigit()] or list(range(1, 9))
    places = gather(root)
    for point in wanted:
        answers = sum(int(place.split()[-2]) for place in places[8]) if point == 8 else 0
        print(f"point {point}: {len(places[point])}" + (f" files with {answers} answers" if answers else ""))
        for place in places[point]:
            print("  " + place)


main()
