#!/usr/bin/env python3
"""Counts the places in crates/*/src that have one of the older forms which docs/DESIGN-PASS.md lists, point by point.

    python3 tools/count_forms.py [--places] [TREE]      the tree at TREE, this repository where none is named; --places names each place
"""
import re
import sys
from pathlib import Path

ENUM = re.compile(r"^(?:pub )?enum (\w+)")
# a constant that numbers a kind, an op, a sort, a mark: a small number under a name, but for sizes and counts of things
KIND = re.compile(r"^(?:pub )?const (\w+): u32 = (\d{1,2});")
SIZES = {"MOST_PARAMETERS", "HIGHEST", "BUDGET", "ARRAY", "PROCEDURE"}
REFUSAL = re.compile(r"(?:Refused|Stop|Unready|None|Halt)\(\d+, |(?:number|\bFault \{ number): \d+|, \d+, (?:at|place|left|right|a|at \+ 1)\);?$")
NONE_NUMBER = re.compile(r"number (?:==|!=) 0|\bUNBOUNDED\b|\bUNKNOWN\b|\.rank\b.*0 <|0 < .*\.rank")
WHILE = re.compile(r"^\s*while ")
CHAIN = re.compile(r"if \(?\(?(?:o|op|k|kind) (?:==|<=) (?:ops|kinds)::")
BY_HAND = re.compile(r"fn (wide|narrow|widened|larger|higher|equal|less|truth|one_if|statements_of|levels_of|deferred_of|label|cap|choose|pick|digit|copy|room_in|passes|clear|clear_ends|frame_of|copy_words|read_words|write_words)\(")
FLAT = re.compile(r"^\s*(?:pub )?(?:table|bounds|marks|costs|ranks|places|values): (?:&mut |&)?\[u(?:32|64|size); \w+\]|(?:table|bounds|marks|costs|ranks|places|values): (?:&mut |&)?\[(?:u32|u64|usize); \w+\]")
FACTS = ("Known", "Listed", "ExpressionRead", "PairRead", "StatementRead", "BlockRead", "Sound", "Ready", "Bounded", "Serves", "Countable")


def functions(lines):
    """each function of a file: the number of its line, its name, its parameters, its contract"""
    i = 0
    while i < len(lines):
        found = re.match(r"\s*(?:pub )?(?:extern \"C\" )?fn (\w+)", lines[i])
        if not found:
            i += 1
            continue
        start, text = i, ""
        while i < len(lines) and not lines[i].rstrip().endswith("{") or (i < len(lines) and re.match(r"\s+(requires|ensures)", lines[i])):
            text += lines[i] + "\n"
            i += 1
        if i < len(lines):
            text += lines[i]
        head = text.split("\n    requires")[0].split("\n    ensures")[0].split("\n        requires")[0].split("\n        ensures")[0]
        inside = head[head.find("(") + 1:]
        depth, at = 1, 0
        for at, c in enumerate(inside):
            depth += (c in "([<{") - (c in ")]}" or (c == ">" and inside[at - 1] != "-"))
            if depth == 0:
                break
        flat, parameters, depth = inside[:at], [""], 0
        for c in flat:
            depth += (c in "([<{") - (c in ")]>}")
            if c == "," and depth == 0:
                parameters.append("")
            else:
                parameters[-1] += c
        parameters = [p.strip() for p in parameters if p.strip()]
        yield start + 1, found[1], parameters, text
        i += 1


def places(tree):
    found = {}

    def note(point, path, line, what):
        found.setdefault(point, []).append(f"{path}:{line}: {what}")

    for path in sorted(tree.glob("crates/*/src/*.rt")):
        shown = path.relative_to(tree)
        lines = path.read_text().split("\n")
        for n, line in enumerate(lines, 1):
            code = line.split("//")[0]
            if m := ENUM.match(code):
                note("1 enums of the repository's own", shown, n, m[1])
            if (m := KIND.match(code)) and m[1] not in SIZES:
                note("1 constants that number a kind", shown, n, m[1])
            if REFUSAL.search(code):
                note("1 bare numbers of refusals and stops", shown, n, code.strip())
            if NONE_NUMBER.search(code):
                note("1 numbers that stand for none", shown, n, code.strip())
            if WHILE.match(code):
                note("3 loops", shown, n, code.strip())
            if CHAIN.search(code):
                note("7 comparisons of a kind or an op", shown, n, code.strip())
            if m := BY_HAND.search(code):
                note("4 functions that do by hand what the library has", shown, n, m[1])
        for n, name, parameters, text in functions(lines):
            if len(parameters) > 5:
                note("5 functions of more than five parameters", shown, n, f"{name} ({len(parameters)})")
            names = {p.split(":")[0].strip() for p in parameters}
            if {"image", "table"} <= names:
                note("5 functions that take an image beside its table", shown, n, name)
            if "requires" in text and any(re.search(rf"\b{f}\b", text.split("ensures")[0].split("requires")[1]) for f in FACTS):
                note("5 contracts that ask for a fact of the image or a part of it", shown, n, name)
            for pair in (("out", "o"), ("trace", "used")):
                if set(pair) <= names:
                    note("6 functions that take a buffer and how far it is filled", shown, n, name)
            if any(FLAT.search(p) for p in parameters):
                note("6 functions that take words packed into one array", shown, n, name)
    return found


def proof_lines(tree):
    files = [p for p in tree.glob("crates/*/proofs/**/*.antt")]
    answers = [p for p in files if p.name in ("Answers.antt", "Invariants.antt")]
    return sum(len(p.read_text().split("\n")) - 1 for p in answers), sum(len(p.read_text().split("\n")) - 1 for p in files if p not in answers)


def main():
    arguments = [a for a in sys.argv[1:] if a != "--places"]
    tree = Path(arguments[0]) if arguments else Path(__file__).resolve().parent.parent
    for point, these in sorted(places(tree).items()):
        print(f"{len(these):5} {point}")
        if "--places" in sys.argv:
            for place in these:
                print("        " + place)
    answers, lemmas = proof_lines(tree)
    print(f"{answers:5} 8 lines of answers and invariants")
    print(f"{lemmas:5} 8 lines of lemmas in proofs/")


main()
