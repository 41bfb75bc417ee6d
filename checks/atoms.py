"""Atoms against the definition, and the links' ends. No command answers atoms yet: so the elements and answers
are those of the tests of calls, which the proved program has passed, and each is made anew here. The least
semi-normal basis is searched among all bases of few expansions, and two of its words are joined where some long
word under the one is moved under the other.

usage: atoms.py PROGRAM
"""
import re
import sys
from pathlib import Path

from common.bases import all_bases, least
from common.powers import carried
from common.words import all_words, longest, moved, parse, under

TABLE = Path(__file__).resolve().parent.parent / "crates" / "ht_call_tests" / "src" / "atoms.rt"
ENTRY = re.compile(r'(\d+),\s*(\d+),\s*"([^"]*)",\s*"([^"]*)",?\s*\)')

# The bases take at most so many expansions, and the lengths of the cycles are at most so great.
MOST_EXPANSIONS = 4
MOST_POWER = 30


def joined(n, r, rows, basis):
    """The pairs of places such that some word under the first is carried to a word under the second."""
    length = 2 * longest([*basis, *(u for row in rows for u in row)])
    steps = [(u, moved(rows, u)) for u in all_words(n, r, length)]
    places = range(len(basis))
    return {(i, j) for u, v in steps for i in places if under(u, basis[i]) for j in places if under(v, basis[j])}


def atoms(n, r, rows, basis):
    """The places of the words of each atom, in order of the first."""
    infinite = [i for i, x in enumerate(basis) if x not in carried(n, rows, x, MOST_POWER)[1:]]
    pairs = joined(n, r, rows, basis)
    found = []
    for i in infinite:
        if any(i in atom for atom in found):
            continue
        atom = {i}
        while more := {j for k in atom for j in infinite if (k, j) in pairs or (j, k) in pairs} - atom:
            atom |= more
        found.append(sorted(atom))
    return "".join(" ".join(map(str, atom)) + ";" for atom in found)


def main():
    entries = ENTRY.findall(TABLE.read_text(encoding="utf-8"))
    wrong = several = 0
    for n, r, text, answer in entries:
        rows = parse(text)
        found = least(tuple(rows), all_bases(int(n), int(r), MOST_EXPANSIONS))
        right = atoms(int(n), int(r), rows, found[1]) if found else "unknown: the basis takes more expansions"
        several += answer.count(";") > 1
        if answer != right:
            wrong += 1
            print(f"atoms: group {n} {r}, {text} has the atoms {right}, not {answer}")
    if several == 0:
        wrong += 1
        print("atoms: no element of the tests has two atoms")
    print(f"atoms: {len(entries)} elements, {several} with more than one atom, {wrong} wrong")
    return 1 if wrong else 0


sys.exit(main())
