"""Power conjugacy against the definition: each answer is multiplied out, elements with a power that is a
conjugate of a power of the other have conjugate powers, and where the answer is that no powers are
conjugate, none with exponents up to 6 are, by any conjugator of few rows; it is the same for the two
elements exchanged.

usage: powers.py PROGRAM
"""
import random
import subprocess
import sys

from common.cases import answered_cases
from common.powers import conjugated, power, product
from common.words import is_canonical, parse, rows_text, some_element, some_pair, some_torsion

# Groups, with the most expansions of the elements and of the bases of the conjugators tried.
GROUPS = [(2, 1, 4, 3), (2, 2, 3, 2), (3, 1, 3, 2), (3, 2, 2, 1), (4, 1, 2, 1), (5, 2, 2, 1)]
MOST = 6


def some_case(rng, n, r, most):
    """Two elements, and whether they are known to have conjugate powers."""
    some = some_torsion if rng.randrange(2) else some_element
    a = product(n, r, [some(rng, n, r, rng.randrange(most + 1))])
    if rng.randrange(2):
        k = rng.choice([-3, -2, -1, 1, 2, 3])
        known = power(n, r, a, k) != power(n, r, a, 0)
        return a, conjugated(n, r, some_pair(rng, n, r, rng.randrange(most)), power(n, r, a, k)), known
    return a, product(n, r, [some(rng, n, r, rng.randrange(most + 1))]), False


def ask(program, n, r, cases):
    """The two answers for each two elements."""
    script = [f"group {n} {r}"]
    for a, b, _ in cases:
        script += [f"let a = {rows_text(a)}", f"let b = {rows_text(b)}", "power a b", "power b a"]
    done = subprocess.run([program], input="".join(f"{line}\n" for line in script).encode(), stdout=subprocess.PIPE, timeout=60)
    answers = done.stdout.decode().split("\n")[1:-1]
    return [answers[at + 2:at + 4] for at in range(0, len(answers) - 3, 4)]


def printed_faults(n, r, a, b, answer):
    """What is wrong with powers that are printed."""
    i, j, text = answer.removeprefix("power ").split(" ")
    i, j, h = int(i), int(j), parse(text)
    if i < 1 or j == 0:
        return ["an exponent isn't one"]
    first, second = power(n, r, a, i), power(n, r, b, j)
    identity = power(n, r, a, 0)
    if identity in (first, second):
        return ["a power is the identity"]
    return [] if is_canonical(n, r, h) and conjugated(n, r, h, first) == second else ["it doesn't conjugate"]


def faults(n, r, case, answers, pairs):
    """What is wrong with the answers."""
    a, b, known = case
    forth, back = answers
    if "power none" in answers:
        if forth != back:
            return ["exchanged they are answered otherwise"]
        if known:
            return ["some powers are conjugate"]
        identity = power(n, r, a, 0)
        others = {power(n, r, b, j) for k in range(1, MOST + 1) for j in (k, -k)} - {identity}
        firsts = {power(n, r, a, i) for i in range(1, MOST + 1)} - {identity}
        return ["some powers are conjugate"] if any(conjugated(n, r, h, first) in others for h in pairs for first in firsts) else []
    if not all(answer.startswith("power ") for answer in answers):
        return ["no verdict"]
    return printed_faults(n, r, a, b, forth) + printed_faults(n, r, b, a, back)


def main():
    rng = random.Random(2016)
    yes = no = wrong = 0
    for n, r, pairs, _, case, answers in answered_cases(sys.argv[1], rng, GROUPS, some_case, ask):
        no += answers[:1] == ["power none"]
        yes += answers[:1] not in ([], ["power none"])
        found = faults(n, r, case, answers, pairs) if answers else ["no answer"]
        wrong += found != []
        for fault in found:
            print(f"powers: group {n} {r}, {rows_text(case[0])} and {rows_text(case[1])} are answered {answers}: {fault}")
    print(f"powers: {yes} with conjugate powers, {no} without, {wrong} wrong")
    return 1 if wrong else 0


sys.exit(main())
