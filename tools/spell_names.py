#!/usr/bin/env python3
"""Spells the repository's own definitions and lemmas in snake case, by the table names.tsv beside this file (old, a tab, new).

usage: python3 tools/spell_names.py [ROOT]     rewrites the files of ROOT (default: the repository's top) in place
       python3 tools/spell_names.py --table ROOT.. --before ROOT..   writes names.tsv anew, from the names that the proof files of each ROOT
           declare, and those that port.py has turned since the ROOTs after --before: edits and pages still have them

Whole names alone turn. A file that takes a name from a library of the kit keeps that name. In a function's proof folder a name behind
a dot is Rattle's and stays. Functions of src/, exported C names, strings, inputs and outputs are not touched: a name turns in .antt
files, in clauses and ghost items of .rt files, in must-fail edits, in tests/edits and tests/refuted, and in the code spans of comments
and pages. A name in camel case turns in comments as well.
"""
import collections
import os
import re
import sys

HERE = os.path.dirname(os.path.realpath(__file__))
TABLE = os.path.join(HERE, "names.tsv")
NAME = r'[^\s(){}.;,@"«»]+'
DECLARED = re.compile(r"^ *(?:(?:abbrev|unfoldable|pub|data|record|syntax|ruleset|opaque)\s+)*([^\s(){};,.]+)(?: \{[^{}\n]*\})* :", re.M)
USE = re.compile(r"\buse ([^\s;{]+)(?:\.\{([^}]*)\})?")
CLAUSE = re.compile(r"(?:\b(?:requires|ensures)\s*\*?\s*(?:\w+\s*)?\{|\bghost\s+(?!use\b)[^;{]*\{)")
GHOST_USE = re.compile(r"ghost\s+use\b[^;]*;")
SPAN = re.compile(r"`[^`\n]+`")
CAMEL = re.compile(r"[a-z][\w]*[a-z0-9][A-Z]\w*")


def walk(root, *folders):
    for folder in folders:
        for at, dirs, files in os.walk(os.path.join(root, folder)):
            dirs[:] = sorted(d for d in dirs if d not in ("out", "target", ".git"))
            for f in sorted(files):
                yield os.path.join(at, f)


def read(path):
    with open(path, encoding="utf-8") as f:
        return f.read()


def is_function_proof(path):
    """Whether a file is the proof of a function: it lies in a folder below proofs/."""
    m = re.search(r"/proofs/(.*)$", path)
    return bool(m and "/" in m.group(1))


def snake(name):
    name = re.sub(r"(?<=[a-z0-9])[A-Z]", lambda m: "_" + m[0].lower(), name.replace("′", "'"))
    return re.sub(r"(?<=[\w'₀-₉])-(?=[\w'])", "_", name)


def of_library(text):
    """The names that a file takes from modules that are not of this repository."""
    names = set()
    for m in USE.finditer(text):
        if m.group(2) and not (m.group(1).startswith("Rattle.") and not re.match(r"Rattle\.(std|core)\b", m.group(1))):
            names |= {part.strip() for it in m.group(2).split(",") for part in it.split(" as ")}
    return names


def names_of(roots):
    names = set()
    for root in roots:
        for path in walk(root, "crates"):
            if path.endswith(".antt") and not is_function_proof(path):
                names |= set(DECLARED.findall(read(path)))
    return {n for n in names if re.match(r"[a-z]", n)}


def write_table(roots, before):
    declared = names_of(roots)
    by_new = collections.defaultdict(set)
    for n in declared:
        by_new[snake(n)].add(n)
    rows = []
    for new, olds in sorted(by_new.items()):
        # of two names that would fall together the definition, in camel case, has the plain one, and the lemma gets _lem
        definitions = [n for n in olds if CAMEL.fullmatch(n)]
        plain = definitions[0] if definitions else (new if new in olds else sorted(olds)[0])
        for old in sorted(olds):
            to = new if old == plain else new + "_lem"
            if to != old:
                rows.append((old, to))
            if old != plain and len(olds) > 2:
                sys.exit(f"three names fall together: {olds}")
    taken = collections.Counter(to for _, to in rows)
    same = declared - {old for old, _ in rows}
    for old, to in rows:
        if taken[to] > 1 or to in same:
            sys.exit(f"{old} -> {to} falls together with another name")
    final = dict(rows)
    for old in sorted(names_of(before) - declared):
        now = snake(old)
        if now not in declared:
            print(f"look: {old} is no longer declared")
        elif final.get(now, now) != old:
            rows.append((old, final.get(now, now)))
    with open(TABLE, "w", encoding="utf-8") as f:
        f.writelines(f"{old}\t{to}\n" for old, to in rows)
    print(f"{len(rows)} names")


class Speller:
    def __init__(self, rows, keep=()):
        self.rows = {o: n for o, n in rows.items() if o not in keep}

    def words(self, text, behind_dot=True):
        def one(m):
            if not behind_dot and m.start() and text[m.start() - 1] == ".":
                return m[0]
            return self.rows.get(m[0], m[0])

        return re.sub(NAME, one, text)

    def prose(self, text):
        text = SPAN.sub(lambda m: self.words(m[0][1:-1]).join("``"), text)
        return re.sub(r"(?<![\w`.-])" + CAMEL.pattern + r"(?![\w`-])", lambda m: self.rows.get(m[0], m[0]), text)

    def lines(self, text, comment, behind_dot=True):
        """Code, and behind the mark of a comment prose."""
        out = []
        for line in text.split("\n"):
            at = re.search(rf"(?:^|(?<=\s)){comment}", line)
            cut = at.start() if at else len(line)
            out.append(self.words(line[:cut], behind_dot) + self.prose(line[cut:]))
        return "\n".join(out)


def clauses(text):
    """Where the clauses, the ghost items and the ghost imports of a source file stand."""
    spans = [m.span() for m in GHOST_USE.finditer(text)]
    for m in CLAUSE.finditer(text):
        depth, at = 1, m.end()
        while depth and at < len(text):
            depth += {"{": 1, "}": -1}.get(text[at], 0)
            at += 1
        spans.append((m.end(), at))
    return sorted(spans)


def turn_source(text, speller):
    out, at = [], 0
    for a, b in clauses(text):
        if a < at:
            continue
        out += [re.sub(r"//[^\n]*", lambda m: speller.prose(m[0]), text[at:a]), speller.words(text[a:b])]
        at = b
    out.append(re.sub(r"//[^\n]*", lambda m: speller.prose(m[0]), text[at:]))
    return "".join(out)


def turn_edit(text, speller):
    out = []
    for line in text.split("\n"):
        wrong = re.match(r"(wrong )([^ :]+(?:::[^ :]+)*)(:.*)", line)
        if wrong:
            line = wrong[1] + speller.words(wrong[2]) + speller.prose(wrong[3])
        elif re.match(r"(old|new):", line):
            line = speller.words(line)
        elif line.startswith("#") or not line.startswith("file:"):
            line = speller.prose(line)
        out.append(line)
    return "\n".join(out)


def turned(path, rel, text, rows):
    if path.endswith(".antt") or path.endswith(".proof"):
        return Speller(rows, of_library(text)).lines(text, "--", not is_function_proof(path))
    if path.endswith(".rt"):
        return turn_source(text, Speller(rows))
    if path.endswith(".edit"):
        return turn_edit(text, Speller(rows))
    if path.endswith(".md"):
        return Speller(rows).prose(text)
    return text


def main(argv):
    if argv and argv[0] == "--table":
        at = argv.index("--before")
        return write_table(argv[1:at], argv[at + 1 :])
    root = argv[0] if argv else os.path.dirname(HERE)
    rows = dict(line.rstrip("\n").split("\t") for line in open(TABLE, encoding="utf-8"))
    pages = [os.path.join(root, "README.md")] + [p for p in walk(root, "docs")]
    count = 0
    for path in list(walk(root, "crates", "tests")) + pages:
        if not path.endswith((".antt", ".proof", ".rt", ".edit", ".md")):
            continue
        before = read(path)
        after = turned(path, os.path.relpath(path, root), before, rows)
        if after != before:
            count += 1
            with open(path, "w", encoding="utf-8") as f:
                f.write(after)
    print(f"{count} files")


if __name__ == "__main__":
    sys.exit(main(sys.argv[1:]))
