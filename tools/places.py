#!/usr/bin/env python3
"""Prints how many places of src/ have the older forms that docs/DESIGN-PASS.md counts, point by point.

    tools/places.py [POINT]      with POINT, its places too
"""
import glob
import re
import sys

# a function's name, and its text from its name to its end
FUNCTION = re.compile(r"^(?:    )?(?:pub )?(?:extern \"C\" )?fn (\w+)(.*?)^(?:    )?\}", re.M | re.S)


def code(path):
    """The file without comments and imports."""
    text = open(path, encoding="utf-8").read()
    return "\n".join(re.sub(r"(^|\s)//.*", "", l) for l in text.split("\n") if not l.startswith(("ghost use", "use ")))


FILES = {p: code(p) for p in sorted(glob.glob("crates/*/src/**/*.rt", recursive=True))}


def lines(pattern, keep=lambda line: True):
    for path, text in FILES.items():
        for n, line in enumerate(text.split("\n")):
            if re.search(pattern, line) and keep(line):
                yield f"{path}: {line.strip()}"


def functions():
    for path, text in FILES.items():
        for m in FUNCTION.finditer(text):
            yield path, m.group(1), m.group(2)


def plain(text):
    """A function's text with every type and number that tells twins apart made the same."""
    text = re.sub(r"\b[iu](8|16|32|64|size)\b", "T", text)
    text = re.sub(r"(\w)(16|32|64)\b", r"\1", text)
    text = re.sub(r"\b\d[\d_]*\b", "N", text)
    names = {}
    body = text[text.find("{\n"):]
    return re.sub(r"\s+", " ", body)


def own_enums():
    """1: enums with a variant for nothing or for a refusal beside one for a value, and structs with a flag for 'good'."""
    for path, text in FILES.items():
        for m in re.finditer(r"enum (\w+) \{(.*?)\n\}", text, re.S):
            yield f"{path}: enum {m.group(1)} {{{' '.join(m.group(2).split())}}}"
        for m in re.finditer(r"(?:pub )?(good|any|once|refusal): (bool|u64),", text):
            yield f"{path}: field {m.group(0)}"
    yield from lines(r"(stopped\(p, \d+|Refused\(\d+|Bad\(\d+|put_refused\(out, \d+)")


def twins():
    """2: functions whose bodies are the same but for types and numbers."""
    seen = {}
    for path, name, text in functions():
        body = plain(text)
        if len(body) > 24:
            seen.setdefault(body, []).append(f"{path}: {name}")
    for group in seen.values():
        if len(group) > 1:
            yield from group


def loops():
    """3: loops that count or search by an index kept by hand."""
    yield from lines(r"^\s*('\w+: )?(while |loop \{|let \w+ = loop)")


def by_hand():
    """4: equality, order, copies and conversions written by hand."""
    yield from lines(r"\b(\w+): \1,?( |$)|\{ (\w+): \3 \}")
    yield from lines(r" as (u8|u16|u32|u64|usize|i32|i64|f32)\b")
    yield from lines(r"if \w+ < \w+ \{ \w+( - \w+)? \} else \{ \w+( - \w+)? \}")


def together():
    """5: functions of seven parameters or more."""
    for path, name, text in functions():
        head = text[: text.find("\n{") if "\n{" in text else len(text)]
        args = head[: re.search(r"\)( ->|\n)", head).start()] if re.search(r"\)( ->|\n)", head) else head
        n = len(re.findall(r"\w+: ", args))
        if n >= 7:
            yield f"{path}: {name}, {n} parameters"


def beside():
    """6: buffers with a length or a place beside them."""
    for path, name, text in functions():
        if re.search(r"&(mut )?\[\w+\],\s+(at|o|vo|from|q): usize", text):
            yield f"{path}: {name}"


def switches():
    """7: a switch on which step to run."""
    yield from lines(r"\b(writes|kept|part|kind): (bool|Part|Kind)\b")


POINTS = {"1": own_enums, "2": twins, "3": loops, "4": by_hand, "5": together, "6": beside, "7": switches}

if __name__ == "__main__":
    wanted = sys.argv[1:] or list(POINTS)
    for point in wanted:
        found = list(POINTS[point]())
        print(f"{point}: {len(found)} ({POINTS[point].__doc__.split(': ', 1)[1]})")
        if sys.argv[1:]:
            print("\n".join("   " + f for f in found))
