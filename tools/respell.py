#!/usr/bin/env python3
"""Respells the repository's own definitions and lemmas: words in snake case, types in camel case.

usage: python3 tools/respell.py [--check]

It was run once, right after the toolchain's port.py, and names no file itself: it collects the names with a hyphen that the files of
specs/ and proofs/ declare, turns each hyphen into an underscore (in a name that begins with a capital, it joins the words in camel case),
and rewrites each place where such a name stands as a whole word: in .antt files, in clauses and ghost items of .rt files, in must-fail
edits, and in code spans of comments and of README.md and docs/. Strings, functions and other prose stay. The names that Rattle makes for
a function's goals and steps stay too: what a proof file declares at a type `goal.X`, and the first name behind the c or w of an answer.
It prints each name whose new spelling already stood in a file that has the old one. --check writes nothing.
"""
import os
import re
import sys

NAME = r"[^\s(){}.;,@\"«»]+"
# Names that plain respelling would leave odd, or would make fall together with another.
ODD = {
    "NoCircle": "HasWay",
    "No-circle": "NoCircle",
    "Goes_on": "GoesOn",
    "sumℤ": "sum_ℤ",
    "signℤ": "sign_ℤ",
    "*ℤ-assoc": "mul_ℤ_assoc",
    "*ℤ-distl": "mul_ℤ_distl",
    "*ℤ-distr": "mul_ℤ_distr",
    "negℤ-*ℤ": "neg_ℤ_mul",
    "one-*ℤ": "one_mul_ℤ",
    "getD-left": "get_or_left",
    "getD-right": "get_or_right",
    "getD-mapped": "get_or_mapped",
    "addP": "add_p",
    "addP-is": "add_p_is",
    "eqM": "eq_m",
    "eqM→eq": "eq_m_eq",
    "evalM": "eval_m",
    "evalP": "eval_p",
    "insM": "ins_m",
    "insM-is": "ins_m_is",
    "insT": "ins_t",
    "insT-is": "ins_t_is",
    "mulM": "mul_m",
    "mulM-is": "mul_m_is",
    "mulP": "mul_p",
    "mulP-is": "mul_p_is",
    "mulT": "mul_t",
    "mulT-is": "mul_t_is",
    "zeroP": "zero_p",
    "zeroP-is": "zero_p_is",
}
ANSWERS = re.compile(r"/proofs/(.*/)?(Answers|Invariants|Choices|Proof)\.antt$")


def files(*ends):
    for folder, dirs, names in os.walk("crates"):
        dirs[:] = sorted(d for d in dirs if d != "out")
        for name in sorted(names):
            if name.endswith(ends):
                yield os.path.join(folder, name)


def read(path):
    with open(path, encoding="utf-8") as f:
        return f.read()


def declared():
    names, made = set(), set()
    words = r"(?:(?:abbrev|pub|unfoldable|record|data|indexed|opaque) +)*"
    for path in files(".antt"):
        text = re.sub(r"(?m)(^|\s)--[^\n]*", r"\1", read(path))
        names |= {m[1] for m in re.finditer(rf"(?m)^ *{words}({NAME})(?: +\{{[^{{}}\n]*\}}| +\([^()\n]*\))* :(?= |\n)", text)}
        names |= {m[1] for m in re.finditer(rf"\b(?:record|data) +({NAME})", text)}
        names |= {m[1] for m in re.finditer(rf"\blet +({NAME})(?: +\{{[^{{}}\n]*\}})* [:=]", text)}
        names |= {m[1] for m in re.finditer(rf"\|? *({NAME}) :", text)}
        made |= {m[1] for m in re.finditer(rf"\bgoal\.({NAME})", text)}
    return names - made


def respelled(name):
    if name in ODD:
        return ODD[name]
    if name[0].isupper():
        return "".join(w[:1].upper() + w[1:] for w in name.split("-"))
    return name.replace("-", "_")


def table():
    return {n: respelled(n) for n in declared() if (n in ODD or "-" in n) and respelled(n) != n and not n.startswith("◌")}


def turn_code(text, rows, met, answers=False):
    def word(m):
        name = m[0]
        if name not in rows:
            return name
        if answers and re.search(r"(?<![^\s(){}.;,@\"«»])[cw]\.$", text[max(0, m.start() - 3) : m.start()]):
            return name
        met.add(name)
        return rows[name]

    return re.sub(NAME, word, text)


def turn_spans(text, rows, met):
    return re.sub(r"`[^`\n]+`", lambda m: turn_code(m[0][1:-1], rows, met).join("``"), text)


def turn_antt(text, rows, met, answers):
    out, at = [], 0
    for m in re.finditer(r'(?m)(?:(?<=\s)|^)--[^\n]*|"(?:[^"\\\n]|\\.)*"', text):
        out.append(turn_code(text[at : m.start()], rows, met, answers))
        out.append(m[0] if m[0][0] == '"' else turn_spans(m[0], rows, met))
        at = m.end()
    return "".join(out) + turn_code(text[at:], rows, met, answers)


def turn_rt(text, rows, met):
    out, at = [], 0
    quiet = r"""//[^\n]*|b?"(?:[^"\\]|\\.)*"|b?'(?:\\u\{[0-9a-fA-F_]+\}|\\x..|\\.|[^'\\\n])'"""
    for m in re.finditer(quiet, text):
        out.append(turn_code(text[at : m.start()], rows, met))
        out.append(turn_spans(m[0], rows, met) if m[0].startswith("//") else m[0])
        at = m.end()
    return "".join(out) + turn_code(text[at:], rows, met)


def main(argv):
    rows = table()
    pages = ["README.md"] + sorted(os.path.join("docs", f) for f in os.listdir("docs") if f.endswith(".md") and not f.startswith("PORT"))
    n = 0
    for path in [*files(".antt", ".rt", ".edit"), *pages]:
        text, met = read(path), set()
        if path.endswith(".antt"):
            new = turn_antt(text, rows, met, bool(ANSWERS.search(path)))
        elif path.endswith(".md"):
            new = turn_spans(text, rows, met)
        else:
            new = turn_rt(text, rows, met)
        there = set(re.findall(NAME, text))
        for name in sorted(met):
            if rows[name] in there and rows[name] not in rows:
                print(f"falls together: {path}: {name} and {rows[name]}")
        if new != text:
            n += 1
            if "--check" not in argv:
                with open(path, "w", encoding="utf-8") as f:
                    f.write(new)
    print(f"{len(rows)} names, {n} files")
    return 0


if __name__ == "__main__":
    raise SystemExit(main(sys.argv[1:]))
