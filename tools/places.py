#!/usr/bin/env python3
"""Counts the places of docs/DESIGN-PASS.md in crates/*/src: tools/places.py [-v] [FOLDER].

FOLDER is a checkout, this one if none is given; -v prints the places too. What a pattern finds is
a place to read: the page says which of them are none of its point.
"""
import collections
import glob
import os
import re
import sys

LINES = [
    ("1 enums", r"^(pub )?enum "),
    ("1 flags beside a value", r"^ +(pub )?(flag|known|remembered|accepted|seen|found|number|has_\w+): u32,$"),
    ("1 numbers for kinds", r"\b(change: usize|last: u32|times: u32)\b|^pub fn \w+_(number|place)\("),
    ("3 loops", r"^ *(while|loop)\b"),
    ("4 conversions and comparisons", r"^(pub )?fn (is_same\w*|is_word|same_\w+|\w+_from|\w+_numbers|flag|add)\("),
    ("4 printing", r"^(pub )?fn put\w*\("),
    ("6 buffers with a length, parallel arrays", r"^pub const NAME|at: usize, end: usize|line: &mut \[u8\], at: usize|\bm: usize\)"),
    ("7 switches and tables of functions", r"\bdyn |: fn\(|\bimpl Fn|\bF: Fn"),
]


def read(folder):
    for path in sorted(glob.glob(os.path.join(folder, "crates/*/src/*.rt"))):
        with open(path, encoding="utf-8") as file:
            yield os.path.relpath(path, folder), file.read()


def functions(text):
    """The head and body of each function, without comments."""
    text = re.sub(r"//[^\n]*", "", text)
    for m in re.finditer(r"^(?:pub )?(?:extern \"C\" )?fn (\w+).*?\n\}\n|^(?:pub )?fn (\w+)[^\n]*\n(?: [^\n]*\n)*\{\}\n", text, re.M | re.S):
        yield m.group(1) or m.group(2), m.group(0)


def shape(function):
    """A function's text with every name, number and text taken out."""
    body = re.sub(r"^ +(requires|ensures)[^\n]*(\n +[×≡→+(][^\n]*)*", "", function, flags=re.M)
    return re.sub(r"\s+", " ", re.sub(r'b?"[^"]*"|[\w:]+', "_", body))


def facts(text):
    """The facts of the `requires`, one by one, without names of buffers."""
    for m in re.finditer(r"^ +requires \{(.*)\}$", text, re.M):
        for fact in m.group(1).split("×"):
            fact = re.sub(r"\b\w+\.(old|now)\b", "_", fact).strip(" ()")
            if fact:
                yield fact


def main():
    names = [a for a in sys.argv[1:] if a != "-v"]
    folder = names[0] if names else os.path.join(os.path.dirname(os.path.abspath(__file__)), "..")
    files = list(read(folder))
    found = collections.OrderedDict((name, []) for name, _ in LINES)
    shapes, told = collections.defaultdict(list), collections.defaultdict(list)
    for path, text in files:
        for at, line in enumerate(text.split("\n"), 1):
            for name, pattern in LINES:
                if re.search(pattern, line):
                    found[name].append(f"{path}:{at}: {line.strip()}")
        for name, function in functions(text):
            if "{}\n" not in function and "no_mangle" not in text and function.count("\n") > 4:
                shapes[shape(function)].append(f"{path}: {name}")
        for fact in facts(text):
            told[fact].append(f"{path}: {fact}")
    found["2 functions of one shape"] = [" ~ ".join(s) for s in shapes.values() if len(s) > 1]
    found["5 facts in three contracts or more"] = [f"{len(s)} times: {f}" for f, s in told.items() if len(s) > 2]
    for name in sorted(found):
        print(f"{len(found[name]):4} {name}")
        if "-v" in sys.argv:
            for place in found[name]:
                print("      " + place)


main()
