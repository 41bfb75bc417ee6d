"""Kinds, orders, profiles and parts against the definitions: the least semi-normal basis is searched
among all bases of few expansions, and the powers of the element are tried one by one, on its words to
the first that tells the kind or the reach, on the roots to the first that fixes them. The parts that
are printed have to move long words as the element does, or not at all.

usage: types.py PROGRAM
"""
import random
import subprocess
import sys

from common.bases import all_bases, is_under, least, stays
from common.powers import carried, product
from common.words import all_words, is_canonical, longest, moved, parse, rows_text, some_element, some_pair, text, turned, under

COMMANDS = ["types a", "order a", "profile a", "parts p q a", "show p", "show q"]

# The least powers that tell kinds and reaches are at most the number of words, which is at most 10, and
# the order of a permutation of 10 words is at most 30.
MOST_POWER = 12
MOST_ORDER = 30

# x5 doesn't stay ahead, though the second power carries it under the attractor x4.
OVER_POND = parse("x1.1>x1;x1.2>x5;x5.1>x2;x5.2>x3;x2>x4.21;x3>x4.22;x4>x4.1")


def first(words, holds):
    """The least power from 1 on for which this holds of the word that it carries to, or None."""
    return next((k for k, v in enumerate(words) if k > 0 and v is not None and holds(v)), None)


class Definitions:
    """What they ask for an element and the words of its least semi-normal basis."""

    def __init__(self, n, r, rows, basis):
        self.n, self.r, self.basis = n, r, basis
        self.rows, self.back = rows, tuple(turned(rows))
        self.ahead = {x: carried(n, self.rows, x, MOST_POWER) for x in basis}
        self.behind = {x: carried(n, self.back, x, MOST_POWER) for x in basis}
        self.cycles = self.found(self.ahead, lambda x, v: v == x)
        self.attractors = self.found(self.ahead, lambda x, v: v != x and under(v, x))
        self.repellers = self.found(self.behind, lambda x, v: v != x and under(v, x))
        self.passing = [x for x in basis if not any(x in kind for kind in (self.cycles, self.attractors, self.repellers))]

    def found(self, carried_to, holds):
        """The words of a kind, each with its least power."""
        powers = {x: first(carried_to[x], lambda v, x=x: holds(x, v)) for x in self.basis}
        return {x: m for x, m in powers.items() if m is not None}

    def reach(self, rows, words, x, ends):
        if not stays(rows, x, self.basis):
            return "-"
        k = first(words, lambda v: is_under(v, ends))
        return f"{k}:{text(words[k])}"

    def kinds(self, x):
        """The kinds of the word: there has to be one."""
        for name, kind, words in ("attractor", self.attractors, self.ahead), ("repeller", self.repellers, self.behind):
            if x in kind:
                yield f"{name} {kind[x]} {''.join(map(str, words[x][kind[x]][1][len(x[1]):]))}"
        if x in self.cycles:
            yield f"cycle {self.cycles[x]}"
        if x in self.passing:
            ahead = self.reach(self.rows, self.ahead[x], x, self.attractors)
            yield f"passing {ahead} {self.reach(self.back, self.behind[x], x, self.repellers)}"

    def types(self):
        return ";".join(f"{text(x)} {kind}" for x in self.basis for kind in self.kinds(x))

    def order(self):
        if len(self.cycles) < len(self.basis):
            return "order infinite"
        return f"order {self.least_fixing()}"

    def least_fixing(self):
        """The least power that fixes all roots, among the first ones, or None."""
        roots = [(i, ()) for i in range(1, self.r + 1)]
        return first(zip(*(carried(self.n, self.rows, x, MOST_ORDER) for x in roots)), lambda words: list(words) == roots)

    def profile(self):
        lengths = list(self.cycles.values())
        return " ".join(f"{m}:{lengths.count(m) // m % (self.n - 1)}" for m in sorted(set(lengths))) or "none"

    def is_part(self, part, on_cycles):
        """A canonical pair that moves the long words under cycle words as the element, or those under
        the other words, and fixes all others."""
        length = longest([u for row in (*part, *self.rows) for u in row] + self.basis)
        return is_canonical(self.n, self.r, part) and all(
            moved(part, u) == (moved(self.rows, u) if is_under(u, self.cycles) == on_cycles else u)
            for u in all_words(self.n, self.r, length)
        )

    def are_parts(self, sizes, periodic, infinite):
        if any(answer.startswith("refused") for answer in (sizes, periodic, infinite)):
            return False
        parts = parse(periodic), parse(infinite)
        return sizes == f"parts {len(parts[0])} {len(parts[1])}" and self.is_part(parts[0], True) and self.is_part(parts[1], False)

    def wrong(self, answers):
        """The commands whose answers aren't those of the definitions."""
        asked = zip(COMMANDS, answers, (self.types(), self.order(), self.profile()))
        wrong = [f"{command}, the definitions say {right}" for command, got, right in asked if got != right]
        if (self.least_fixing() is None) != (self.order() == "order infinite"):
            wrong.append("order a, by the powers of the roots")
        return wrong if self.are_parts(*answers[3:]) else wrong + ["parts p q a"]

    def is_over_pond(self, x):
        """Whether some power carries a passing word under an attractor though it doesn't stay ahead, or
        the same behind."""
        return any(
            not stays(rows, x, self.basis) and first(words[x], lambda v: is_under(v, ends)) is not None
            for rows, words, ends in ((self.rows, self.ahead, self.attractors), (self.back, self.behind, self.repellers))
        )


def some_elements(rng, n, r, most):
    found = [some_element(rng, n, r, rng.randrange(most)) for _ in range(36)]
    if (n, r) == (2, 5):
        found += [OVER_POND, turned(OVER_POND)] * 3
    pairs = [some_pair(rng, n, r, rng.randrange(2)) for _ in found]
    return [product(n, r, [turned(by), rows, by]) for rows, by in zip(found, pairs)]


def ask(program, n, r, elements):
    """The answers to the commands for each element."""
    lines = [line for rows in elements for line in [f"let a = {rows_text(rows)}", *COMMANDS]]
    script = "".join(f"{line}\n" for line in [f"group {n} {r}", *lines])
    done = subprocess.run([program], input=script.encode(), stdout=subprocess.PIPE, timeout=60)
    answers = done.stdout.decode().split("\n")[1:-1]
    size = len(COMMANDS) + 1
    return [answers[at + 1:at + size] for at in range(0, len(answers) - size + 1, size)]


def main():
    rng = random.Random(2014)
    tried = torsion = passing = over_ponds = wrong = 0
    for n, r, most in [(2, 1, 6), (2, 2, 5), (2, 4, 4), (2, 5, 3), (3, 1, 4), (3, 2, 3), (4, 1, 3), (5, 2, 2), (9, 1, 1)]:
        levels = all_bases(n, r, most)
        elements = some_elements(rng, n, r, most)
        answered = ask(sys.argv[1], n, r, elements)
        if len(answered) != len(elements):
            wrong += 1
            print(f"types: answers for {len(answered)} elements of {len(elements)}")
        for rows, answers in zip(elements, answered):
            found = least(rows, levels)
            if found is None:
                continue
            definitions = Definitions(n, r, rows, found[1])
            tried += 1
            torsion += definitions.order() not in ("order 1", "order infinite")
            passing += definitions.passing != []
            over_ponds += any(map(definitions.is_over_pond, definitions.passing))
            faults = definitions.wrong(answers)
            wrong += faults != []
            for fault in faults:
                print(f"types: group {n} {r}, {rows_text(rows)} is answered {answers}: {fault}")
    print(f"types: {tried} elements, {torsion} of finite order past 1, {passing} with passing words, {over_ponds} of these over ponds, {wrong} wrong")
    return 1 if wrong else 0


sys.exit(main())
