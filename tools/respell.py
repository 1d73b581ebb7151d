#!/usr/bin/env python3
"""Respells this repository's own definitions and lemmas as today's Rattle spells them: words in snake case.

usage: python3 tools/respell.py      once, at the top, after /opt/rattle/port/port.py

It goes by whole names, in the proofs, the specs and the code of every crate: a name with a dash stands in clauses alone there.
Comments and must-fail edits stay as they are. It stops where a new name stands in a file of proofs or specs already, since the
two would fall together; in the code a definition may have the name of a function, which no clause can speak of.
"""

import pathlib
import re
import sys

# A dash stays where it joins the names of two definitions, as in `sorted-append`.
SNAKE = """
all-free all-passed along-found along-more along-start answer-to at-falls at-good before-asym blocked-enter
blocked-none book-fault book-of book-p book-row book-rows bound-fault cap-passes case-holds case-test cases-held
choose-back choose-in choose-none choose-on comes-to-wishes cost-some counted-to deep-enough depths-kept each-mark
each-once earlier-asym earlier-second fault-text fewer-put finds-own finds-repeated finds-unknown finite-falls
finite-less finite-most first-freed first-none first-same flat-none found-by found-nth found-on free-v freed-both
freed-none freed-on-path freed-released frees-one fresh-by-places fresh-from-places fresh-not fresh-short fresh-weaken
from-roots full-remaining hands-after hands-opening hands-remaining has-false has-from has-not has-true has-wish
header-facts header-fault held-accepted held-layout held-long held-nothing if-left in-cases in-choose-back
in-choose-on in-flat in-others in-put inv-entered inv-found inv-none inv-opening inv-passed inv-released inv-waits
j-is keeps-free layer-name layer-of leads-next length-if lesser-asym lesser-behind lesser-here lesser-of lesser-parts
list-by locked-in mark-last marks-all marks-only may-enter may-hold may-not no-two no-waiters no-wishes none-at
none-finite none-next none-wide not-held now-free number-bounds number-kept of-root on-frames on-path on-root on-wish
one-does one-full-list one-if one-keeps one-wide only-both only-within other-rows part-back part-each part-on
part-only part-sorted passed-lower passed-more path-falls path-good put-unless q-is r-is raise-within reached-locked
reached-or-not refuse-if release-leaves release-only release-within remains-after remains-entered remains-left
remains-passed remains-ring remains-root reverse-on rings-of root-each root-falls root-first root-good root-only
root-sorted roots-each roots-only roots-pull roots-sorted row-fault row-number-fault row-number-ok row-once row-past
row-short row-test rows-from rows-test run-finds run-goes run-test seen-lower set-lower set-only sorted-choose
sorted-places sorted-row sorted-same step-good step-on stops-at-header stops-at-table summary-of summary-text
table-facts table-fault table-holds table-offset table-passes table-test true-stays under-only used-falls used-good
used-up visit-only wait-does wait-each wait-keeps wait-one wait-wide way-fresh way-from way-leads well-formed
wish-count wish-falls wish-fault wish-good wish-kept wish-of wishes-at wishes-fault wishes-offset with-locks with-path
within-from work-frames work-left work-pull work-roots
""".split()

OTHER = {
    "getD-all": "get_or-all",
    "in-getD": "in-get_or",
    "Near-v": "NearV",
}

NEW = {name: name.replace("-", "_") for name in SNAKE} | OTHER

NAME = re.compile(r"[^\s(){}\[\];,.:\"&|]+")


def respelled(line):
    """The line with the new names, but for its comment."""
    code, mark, comment = line.partition("--")
    if line.lstrip().startswith("//"):
        return line
    return NAME.sub(lambda m: NEW.get(m.group(0), m.group(0)), code) + mark + comment


def main():
    files = [p for end in ("antt", "rt") for p in sorted(pathlib.Path("crates").rglob(f"*.{end}")) if "out" not in p.parts]
    texts = {p: p.read_text(encoding="utf-8") for p in files}
    clashes = []
    for p, text in texts.items():
        there = set(NAME.findall("\n".join(line.partition("--")[0] for line in text.split("\n")))) if p.suffix == ".antt" else set()
        clashes += [f"{p}: {old} and {new}" for old, new in NEW.items() if old in there and new in there]
    if clashes:
        sys.exit("\n".join(["names that would fall together:"] + clashes))
    changed = 0
    for p, text in texts.items():
        new = "\n".join(map(respelled, text.split("\n")))
        if new != text:
            p.write_text(new, encoding="utf-8")
            changed += 1
    print(f"{changed} files respelled")


if __name__ == "__main__":
    main()
