#!/usr/bin/env python3
"""Spells the definitions and lemmas of this repository as today's Rattle does: words in snake case.

usage: tools/respell.py [--list]      at the top of the repository

A name that a file of specs/ or a file of lemmas in proofs/ declares in lower camel case or with dashes becomes plain snake case,
wherever it is cited: in specs/, proofs/, clauses and comments. Functions of src/, exported C names and strings keep their names.
A lemma that would have the name of a definition gets _lem.
--list writes nothing: it prints old and new names, and the files in which a new name stood already.
"""

import os
import re
import sys

NAME = r"[^\s(){}.;,@\"«»]+"
DECLARED = re.compile(rf"(?m)^ *(?:(?:pub|abbrev|unfoldable|infixl|infixr) )*({NAME})(?: \{{[^{{}}\n]*\}})* :(?= )")
FIELD = re.compile(rf"(?m)^ +(?:pub )?({NAME})(?: \{{[^{{}}\n]*\}})* :(?= )")
PER_FUNCTION = ("Proof.antt", "Answers.antt", "Invariants.antt")
# Lemmas, a field and a local name that were in snake case already, and whose name a definition takes now.
TAKEN = {"taken_out", "filled_in", "good_of", "is_digit", "is_free", "in_order"}


def files(ending):
    for folder, dirs, names in os.walk("crates"):
        dirs[:] = sorted(d for d in dirs if d != "out")
        for name in sorted(names):
            if name.endswith(ending):
                yield os.path.join(folder, name)


def of_function(path):
    """Whether a file is of the proof of one function, and not of definitions or lemmas."""
    folder, name = os.path.split(path)
    return name in PER_FUNCTION and os.path.basename(folder) not in ("specs", "proofs")


def text_of(path):
    with open(path, encoding="utf-8") as f:
        return f.read()


def in_snake_case(name):
    name = re.sub(r"^getD(?=-|$)", "get_or", name)
    words = re.sub(r"(?<=[a-z0-9])[A-Z]", lambda m: "_" + m[0].lower(), name)
    return words.replace("-", "_")


def declared():
    """The names to be respelled, old to new; and those among them that are fields."""
    names, fields = set(), set()
    for path in files(".antt"):
        if of_function(path):
            continue
        code = re.sub(r"(?m)--.*$", "", text_of(path))
        names.update(it for it in DECLARED.findall(code) if re.match(r"[a-z]", it))
        inside = False
        for line in code.split("\n"):
            if re.match(r" *(pub )?(record|data) ", line):
                inside = True
                depth = len(line) - len(line.lstrip())
            elif inside and line.strip() and len(line) - len(line.lstrip()) <= depth:
                inside = False
            elif inside:
                fields.update(FIELD.findall(line))
    definitions = {in_snake_case(it) for it in names if re.search(r"[A-Z]", it) and "-" not in it}
    definitions.update(it for it in names if not re.search(r"[A-Z-]", it))
    table = {it: it + "_lem" for it in TAKEN}
    for name in names - TAKEN:
        new = in_snake_case(name)
        table[name] = new + "_lem" if "-" in name and new in definitions else new
    return {old: new for old, new in table.items() if old != new}, fields


def respelled(code, table, fields, modules):
    """antt text with the new names; behind a dot of a value only fields are turned."""

    def turn(m):
        steps = m[0].split(".")
        module = steps[0] == "" and re.match(r"[A-Z]", steps[1])
        for i, name in enumerate(steps):
            behind_value = i > 0 and not module
            if name in table and not (behind_value and name not in fields) and not (i > 0 and steps[i - 1] in modules):
                steps[i] = table[name]
            module = bool(re.match(r"[A-Z]", name))
        return ".".join(steps)

    return re.sub(rf"\.?{NAME}(?:\.{NAME})*", turn, code)


def of_libraries(text):
    """The names that a file has from elsewhere, and the modules of others that it names by a short name."""
    own, names, modules = set(os.listdir("crates")), set(), set()
    for path, items, alias in re.findall(r"\buse ([^\s;{]+?)(?:\.\{([^}]*)\})?(?: as ([^\s;]+))?;?\s*$", text, re.M):
        steps = path.split(".")
        if not (steps[0] == "Rattle" and len(steps) > 1 and steps[1] in own):
            names.update(re.findall(NAME, items))
            modules.add(alias or steps[-1])
    return names, modules


def in_comment(text, table):
    def ticked(m):
        return "`" + re.sub(NAME, lambda n: table.get(n[0], n[0]), m[1]) + "`"

    text = re.sub(r"`([^`\n]+)`", ticked, text)
    return re.sub(r"[a-z][a-z0-9]*(?:[A-Z][a-z0-9]*)+", lambda n: table.get(n[0], n[0]), text)


def turned_antt(text, table, fields):
    lines = []
    others, modules = of_libraries(text)
    table = {old: new for old, new in table.items() if old not in others}
    for line in text.split("\n"):
        code, mark, comment = line.partition("--") if re.search(r"(^|\s)--( |$)", line) else (line, "", "")
        if mark and not (code == "" or code.endswith(" ")):
            code, mark, comment = line, "", ""
        code = re.sub(r"[^\"]+|\"[^\"]*\"", lambda m: m[0] if m[0][0] == '"' else respelled(m[0], table, fields, modules), code)
        lines.append(code + mark + in_comment(comment, table))
    return "\n".join(lines)


def turned_rt(text, table, fields):
    lines = []
    others, modules = of_libraries(text)
    table = {old: new for old, new in table.items() if old not in others}
    for line in text.split("\n"):
        code, mark, comment = line, "", ""
        at = re.search(r"(^|\s)//", line)
        if at and line[: at.end() - 2].count('"') % 2 == 0:
            code, mark, comment = line[: at.end() - 2], "//", line[at.end() :]
        code = re.sub(r"[^\"]+|\"[^\"]*\"", lambda m: m[0] if m[0][0] == '"' else respelled(m[0], table, fields, modules), code)
        lines.append(code + mark + in_comment(comment, table))
    return "\n".join(lines)


def main():
    if sys.argv[1:] not in ([], ["--list"]):
        raise SystemExit(__doc__)
    table, fields = declared()
    if not any(re.search(r"[a-z][A-Z]", old) for old in table):
        raise SystemExit("respell: no name in lower camel case is left: the script has run")
    of_rust = {old: new for old, new in table.items() if old not in TAKEN}
    listing = "--list" in sys.argv
    if listing:
        back = {}
        for old, new in sorted(table.items()):
            back.setdefault(new, []).append(old)
        for new, olds in sorted(back.items()):
            print(" ".join(olds), "->", new, "TOGETHER" if len(olds) > 1 else "")
    for ending in (".antt", ".rt"):
        for path in list(files(ending)):
            text = text_of(path)
            if listing:
                tokens = set(re.findall(NAME, re.sub(r"(?m)(--|//).*$", "", text)))
                for old in tokens & set(table):
                    if table[old] in tokens:
                        print("MEETS", path, old, table[old])
                continue
            new = turned_rt(text, of_rust, fields) if ending == ".rt" else turned_antt(text, table, fields)
            if new != text:
                with open(path, "w", encoding="utf-8") as f:
                    f.write(new)


main()
