#!/usr/bin/env python3
"""Brings the repository's own definitions and lemmas to today's spelling, once.

Words are in snake case: `readWord` is read_word, `word-passes` is word_passes. Names that Rattle
makes (goals, steps of a function) and names of its libraries stay as they are, and so do functions
of src/, strings and what the programs read and write. Names that would fall together with another
get the one that SPECIAL says.

Usage, at the top of the repository, after port.py: tools/spelling.py [--list]
"""
import collections
import glob
import re
import sys

# Names whose plain spelling is taken by another name of the repository: a lemma that would have
# the name of a definition gets `_lem` behind it.
SPECIAL = {name: snake_name for name, snake_name in (
    (name, name.replace("-", "_") + "_lem") for name in (
        "answer-by client-taken count-after false-count found-by frame-bytes frame-written "
        "handed-bytes is-accepted last-seen new-sink new-source one-bit-wrong row-placed sink-takes "
        "source-call source-calls tallies-from tallies-numbers tally-at word-bytes "
        "zero-frames").split())}
SPECIAL["tallies-after"] = "tallies_then"
SPECIAL["lastDigits"] = "last_digits_of"

# Lemmas to which port.py gave the name of a definition, in these files.
CLASHES = {"crates/claim_interface/proofs/Named.antt": {"in_window": "in_window_lem"}}

# Names of the repository that port.py turned in .antt and .rt files, and nowhere else.
PORTED = """
add-at add-kept add-parts add-spec add-start add-total added-twice after-next afterCall
agree-after all-asked all-from all-map all-of all-seen all-there answerOf any-out apart-from
areBytes as-many at-drop at-map at-most at-same at-zero back-more block-room both-left
both-right both-true by-number by-place byte-at bytesOf callsOf chain-by clear-spec copied-more
copied-none countOf counted-none cut-small cut-twice digit-lt digits-are done-next drop-at
drop-past each-at each-both each-lent end-is enum-told equal-is few-bytes fill-spec filled-copy
filled-none first-goes first-read fits-gives flipped-word fold-next frame-is frame-off
frame-refused frameAt frameOf from-end from-first from-one from-place getD-tabulate goes-on
goes-step hands-out heard-all held-by held-on in-frame in-mem in-parts in-row in-step in-window
inTurn is-found isLast keep-spec keeping-start kept-by left-over leftOf lend-call lent-ref
loadOf main-spec map-at mul-at nameOf no-flag no-less no-more no-name no-other none-before
none-or none-passes none-told not-more not-named numberOf numbered-of of-xor one-end one-further
one-more one-of one-passes one-placed one-told one-type orElse others-by outOf pair-spec
passed-none passed-on place-byte place-of plain-word put-next put-spec read-by read-named
read-one read-spec reads-two refusal-is release-spec row-count row-within run-room run-short
same-after same-bits same-first same-length same-number same-takes sameList seen-back seen-of
sink-begins so-far some-byte source-is source-told step-count step-kept step-row sub-part
sub-used sum-same sum-step sumOf sumTo sums-next sums-none tableOf take-last take-next take-on
taken-is taken-none takes-one tallyOf to-last to-step told-is told-with too-large totalOf
up-least up-to whole-is whole-of whole-part whole-same withFlags word-back word-lt word-read
wordBytes wordOf xor-assoc zeros-of
""".split()

# Names of libraries that port.py turned in .antt and .rt files, and nowhere else.
LIBRARIES = {"bitXor": "bit_xor", "bitAnd": "bit_and", "bitOr": "bit_or", "getD": "get_or",
             "vec-len": "vec_len", "the-variants": "TheVariants"}

TOKEN = re.compile(r"[^\s(){}\[\].;,\"`|«»⌜⌝]+")
DEFINED = re.compile(r"^(?:abbrev |unfoldable )?(?:pub )?([^\s:(){}]+) :(?!:) *(\S*)")
FIELD = re.compile(r"^\s+(?:pub )?([^\s:(){}]+) :(?!:)")
LIBRARY = re.compile(
    r"use ((?:mathlib|Prim|native|lib|borrow|denote|Rattle\.std|Rattle\.core)[^;{\n]*)\.\{([^}]*)\}")


def snake(name):
    """The name in snake case."""
    name = re.sub(r"([a-z0-9])([A-Z])", lambda m: m.group(1) + "_" + m.group(2).lower(), name)
    return name.replace("-", "_")


def theories():
    return sorted(glob.glob("crates/*/specs/**/*.antt", recursive=True) +
                  glob.glob("crates/*/proofs/**/*.antt", recursive=True))


def own_names():
    """The repository's own names that are not in snake case, and where each is defined."""
    names = collections.defaultdict(set)
    for path in theories():
        for line in open(path, encoding="utf-8"):
            found = DEFINED.match(line)
            if found and found.group(2).split(".")[0] in ("tie", "goal"):
                continue  # an answer to a goal: Rattle makes its name
            found = found or FIELD.match(line)
            if not found:
                continue
            name = found.group(1)
            if name.startswith("--") or name[0].isupper():
                continue
            if "-" in name or re.search(r"[a-z0-9][A-Z]", name):
                names[name].add(path)
    return names


def from_libraries(text):
    """The names that a file takes from a library."""
    taken = set()
    for _, listed in LIBRARY.findall(text):
        for part in listed.split(","):
            taken.update(part.split())
    return taken


def turned(text, names, kept=frozenset()):
    """The text with each of the names in its new spelling, strings aside."""
    def one(found):
        token = found.group(0)
        return names[token] if token in names and token not in kept else token
    return TOKEN.sub(one, text)


def turned_source(text, names, kept):
    """A source file: what stands in a string stays."""
    parts = re.split(r'(b?"(?:[^"\\]|\\.)*")', text)
    return "".join(part if i % 2 else turned(part, names, kept) for i, part in enumerate(parts))


def main():
    where = own_names()
    names = {name: SPECIAL.get(name, snake(name)) for name in where}
    if "--list" in sys.argv:
        for name in sorted(names):
            print(name, names[name], *sorted(where[name]))
        return
    sources = sorted(glob.glob("crates/*/src/**/*.rt", recursive=True))
    edits = sorted(glob.glob("crates/*/must-fail/*.edit"))
    beside = dict(names, **{name: snake(name) for name in PORTED}, **LIBRARIES)
    for path in theories() + sources:
        text = open(path, encoding="utf-8").read()
        clash = CLASHES.get(path, {})
        text = turned(text, clash)
        kept = from_libraries(text)
        new = (turned_source if path.endswith(".rt") else turned)(text, names, kept)
        if new != open(path, encoding="utf-8").read():
            open(path, "w", encoding="utf-8").write(new)
    for path in edits:
        text = open(path, encoding="utf-8").read()
        new = turned(text, beside)
        if new != text:
            open(path, "w", encoding="utf-8").write(new)
    pages = sorted(glob.glob("README.md") + glob.glob("docs/**/*.md", recursive=True))
    for path in pages:
        text = open(path, encoding="utf-8").read()
        parts = re.split(r"(`[^`\n]*`)", text)
        new = "".join(turned(part, beside) if i % 2 else part for i, part in enumerate(parts))
        if new != text:
            open(path, "w", encoding="utf-8").write(new)


if __name__ == "__main__":
    main()
