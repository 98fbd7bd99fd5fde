"""What `rt ci` tells of each must-fail edit: the first thing that is no longer proved with it.

That is a place in a crate's code, in the proof of a function, or in a law. What rests on it is not
proved either: the laws and proofs that cite a law, and the functions that call a function. An edit
that the prover refuses by a limit of its own, or only since a name is gone, dies in nothing.
"""
import pathlib
import re

CRATES = pathlib.Path("crates")

EDIT = re.compile(r"^rt: must-fail (\w+)/([\w.-]+)\.edit: refused, as it must be: (.*)$", re.M)
PLACE = re.compile(r"(?:note: )?(?:\./)?(src|specs|proofs)/(\S+?):(\d+):\d+: ")
LAW = re.compile(r"error: `([^`]+)`")

# A function with the attributes above it.
FUNCTION = re.compile(r"^(?:#\[.*\n)*(?:pub )?(?:extern \"C\" )?fn (\w+)", re.M)
GIVEN = re.compile(r"^#\[tactic\(.*$", re.M)
CALL = re.compile(r"\b(\w+)\(")
# A law or another definition, at the left edge of a file of proofs or in a module of it.
STATED = re.compile(r"^(?:  )?(?:(?:abbrev|unfoldable|pub) )*([^\s(){}]+) :(?: |$)", re.M)
WORD = re.compile(r"[^\s(){}\[\],;.]+")


def parts(text, pattern):
    """What the pattern names in a text, each with the text from there to the next."""
    found = list(pattern.finditer(text))
    ends = [it.start() for it in found[1:]] + [len(text)]
    return [(it[1], text[it.start() : end]) for it, end in zip(found, ends)]


class Crate:
    """The functions and laws of a crate, each with the laws that it cites and what it calls."""

    def __init__(self, name):
        self.folder = CRATES / name
        self.calls, self.cites, self.laws = {}, {}, {}
        for file in self.folder.glob("src/*.rt"):
            for function, text in parts(file.read_text(encoding="utf-8"), FUNCTION):
                self.calls.setdefault(function, set()).update(CALL.findall(text))
                given = " ".join(GIVEN.findall(text)).replace("::", " ")
                self.cites.setdefault(function, set()).update(WORD.findall(given))
        for file in self.folder.glob("proofs/*/*.antt"):
            words = WORD.findall(file.read_text(encoding="utf-8"))
            self.cites.setdefault(file.parent.name, set()).update(words)
        for file in self.folder.glob("proofs/*.antt"):
            for law, text in parts(file.read_text(encoding="utf-8"), STATED):
                self.laws.setdefault(law, set()).update(set(WORD.findall(text)) - {law})

    def lost(self, what):
        """The functions and laws that are not proved where these are not."""
        lost = set(what)
        while True:
            more = {it for it, words in self.laws.items() if words & lost}
            more |= {it for it, words in self.cites.items() if words & lost & set(self.laws)}
            more |= {it for it, called in self.calls.items() if called & lost & set(self.calls)}
            if more <= lost:
                return lost
            lost |= more

    def at(self, part, file, line, said):
        """What stands at a place: a function, with the attributes above it, or a law."""
        path = pathlib.Path(part, file)
        if part == "proofs" and len(path.parts) > 2:
            return {path.parts[1]}
        named = LAW.search(said)
        if part != "src" and named:
            return {named[1]}
        text = (self.folder / path).read_text(encoding="utf-8")
        found = (FUNCTION if part == "src" else STATED).finditer(text)
        above = [it[1] for it in found if text.count("\n", 0, it.start()) < int(line)]
        return set(above[-1:])


def dies_in(log):
    """What is not proved with each edit that a log of `rt ci` tells of, by its crate and label."""
    crates, died = {}, {}
    for name, label, said in EDIT.findall(pathlib.Path(log).read_text(encoding="utf-8")):
        crate = crates.setdefault(name, Crate(name))
        place = PLACE.match(said)
        died[name, label] = crate.lost(crate.at(*place.groups(), said)) if place else set()
    return died
