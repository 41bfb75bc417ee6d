"""The program on large inputs, each with the most seconds of user time that the least of three runs may take on one
core and 1 GiB of memory; and how much longer the summary of a sample takes where it has twice as many words.

usage: times.py PROGRAM
"""
import os
import random
import resource
import subprocess
import sys
import tempfile
from pathlib import Path

from common.samples import sample
from common.words import all_letters, behind, file_text, some_pair, turned_words

MOST_BYTES = 1 << 30
# Numbers of words for which a sample's elements aren't large, nor their powers.
SIZES = 2_960, 5_920
LIMITS = Path(__file__).resolve().parent.parent / "examples" / "limits"


def words_of(length, expanded=0):
    """All words of so many letters, the first ones expanded."""
    words = [(1, z) for z in all_letters(2, length)]
    return [behind(w, (c,)) for w in words[:expanded] for c in (1, 2)] + words[expanded:]


def permuted(words):
    """The rows from the words to the same words in another order."""
    others = list(words)
    random.Random(4700).shuffle(others)
    return list(zip(words, others))


def adding_machine(depth):
    """One is added to the number with these binary digits, the lowest first."""
    rows = [((1, (2,) * k + (1,)), (1, (1,) * k + (2,))) for k in range(depth)]
    return rows + [((1, (2,) * depth), (1, (1,) * depth))]


def comb(depth):
    return [(1, (2,) * k + (1,)) for k in range(depth)] + [(1, (2,) * depth)]


def cycled(words, lengths):
    """The words on cycles of these lengths, one after another."""
    rows, at = [], 0
    for length in lengths:
        cycle = words[at:at + length]
        rows += zip(cycle, cycle[1:] + cycle[:1])
        at += length
    return rows


def chained(words):
    """The first word repels, the last one attracts, and each one between them goes to the one before it."""
    first, *middle, last = words
    middle.reverse()
    return list(zip([behind(first, (1,)), behind(first, (2,))] + middle + [last], [first] + middle + [behind(last, (2,)), behind(last, (1,))]))


def lengthened(words, length):
    """The first word repels, the last one attracts, and each one between them goes under the next one,
    beside what comes from the first word; they are as many as there are words of this length."""
    first, *middle, last = words
    froms = [behind(first, (1,))] + [behind(first, (2,) + z) for z in all_letters(2, length)] + middle + [last]
    tos = [first, middle[0]] + [behind(w, (c,)) for c in (2, 1) for w in middle[1:]] + [behind(last, (2,)), behind(last, (1,))]
    return list(zip(froms, tos))


def layered(words, fan):
    """The first word repels, the last one attracts, and what comes from the first goes to the second, then
    through all others, and under the last one: parted by the fan in its order when it comes, and in another one
    when it goes. So each word between them is parted by the fan in the basis."""
    first, *middle, last = words
    others = list(fan)
    random.Random(50_000).shuffle(others)
    coming = [(behind(first, (2,) + z), behind(middle[0], y)) for z, y in zip(fan, others)]
    going = [(behind(middle[-1], z), behind(last, (2,) + y)) for z, y in zip(fan, others[::-1])]
    return [(behind(first, (1,)), first)] + coming + list(zip(middle, middle[1:])) + going + [(last, behind(last, (1,)))]


def rounded(words, length):
    """The first word repels, and the others are one round of attractors: each of them goes under the next
    one and the last one under the first, beside what comes from the first word."""
    first, *others = words
    froms = [behind(first, (1,))] + [behind(first, (2,) + z) for z in all_letters(2, length)] + others
    tos = [first] + [behind(w, (2,)) for w in others] + [behind(w, (1,)) for w in others[1:] + others[:1]]
    return list(zip(froms, tos))


def ponded(words):
    """Of each four words the first repels, the last one attracts, and the two between them part from the
    first and meet under the last: one pond of two steps."""
    rows = []
    for at in range(0, len(words) - 3, 4):
        t, u, v, w = words[at:at + 4]
        rows += [(behind(t, (1,)), t), (behind(t, (2, 1)), u), (behind(t, (2, 2)), v), (u, behind(w, (2, 1))), (v, behind(w, (2, 2))), (w, behind(w, (1,)))]
    return rows + [(word, word) for word in words[len(words) // 4 * 4:]]


def combed(words, depth):
    """The first of these words repels, the last one attracts, and those between them are the leaves of a
    comb of this depth under the first, and go to those of a comb under the last: ponds in ponds."""
    first, *middle, last = words[:depth + 3]
    leaves = [(2,) + (2,) * k + (1,) for k in range(depth)] + [(2,) * (depth + 1)]
    rows = [(behind(first, (1,)), first)] + [(behind(first, z), w) for z, w in zip(leaves, middle)]
    rows += [(w, behind(last, z)) for z, w in zip(leaves, middle)] + [(last, behind(last, (1,)))]
    return rows + [(word, word) for word in words[depth + 3:]]


def placed(rows, words):
    """These rows, the letters of a root in place of the root: each root is one of the words."""
    return [tuple(behind(words[root - 1], z) for root, z in row) for row in rows]


# Two atoms whose ends agree, each on two words, and three that are on one word.
STRAIGHT = [((1, (1,)), (1, ())), ((1, (2,)), (2, (2,))), ((2, ()), (2, (1,)))]
CROSSED = [((1, (1,)), (1, ())), ((1, (2, 1)), (2, (2, 2))), ((1, (2, 2)), (2, (2, 1))), ((2, ()), (2, (1,)))]
SHORT = [((1, (1,)), (1, (1, 1))), ((1, (2, 1)), (1, (1, 2))), ((1, (2, 2)), (1, (2,)))]
UNEVEN = [((1, (1,)), (1, (1, 1, 1))), ((1, (2, 1, 1)), (1, (1, 1, 2))), ((1, (2, 1, 2)), (1, (1, 2))), ((1, (2, 2)), (1, (2,)))]
LONG = [((1, (1,)), (1, (1, 1, 2))), ((1, (2, 1)), (1, (1, 1, 1))), ((1, (2, 2, 1)), (1, (1, 2))), ((1, (2, 2, 2)), (1, (2,)))]


def atoms_of(kinds, words):
    """An atom of each of these kinds, one after another on the words, of which the others stay."""
    rows = []
    for kind in kinds:
        roots = max(root for row in kind for root, _ in row)
        rows += placed(kind, words[:roots])
        words = words[roots:]
    return rows + [(w, w) for w in words]


def crossed(words):
    """The same chain, but that what goes beside the last word is cut in two and exchanged."""
    rows, last = chained(words), words[-1]
    beside = behind(last, (2,))
    word = next(u for u, v in rows if v == beside)
    return [row for row in rows if row[1] != beside] + [(behind(word, (c,)), behind(beside, (3 - c,))) for c in (1, 2)]


def lettered(length, turn):
    """An attractor with so many letters 1, a repeller with as many, and words that go from one to the other, in
    the same order, or moved on by one."""
    ends = [((1, (1,)), (1, (1,) * (length + 1))), ((1, (2,) + (1,) * length), (1, (2,)))]
    return ends + [((1, (2,) + (1,) * k + (2,)), (1, (1,) + (1,) * ((k + turn) % length) + (2,))) for k in range(length)]


def conjugacy():
    """The name of two elements, their rows, and what `conj` answers."""
    rng = random.Random(600)
    words = words_of(10, 976)
    others = list(words)
    rng.shuffle(others)
    yield "2,000 atoms that are alike", atoms_of([SHORT] * 2_000, words), atoms_of([SHORT] * 2_000, others), "conjugate x1"
    yield "such atoms, of which one is another", atoms_of([SHORT] * 2_000, words), atoms_of([LONG] + [SHORT] * 1_999, others), "not conjugate"
    chain = words_of(12, 904)
    middle = chain[1:-1]
    rng.shuffle(middle)
    yield "a chain of 4,998 words", chained(chain), chained([chain[0]] + middle + [chain[-1]]), "conjugate x1"
    yield "a chain of 4,998 words, and one that is crossed at its end", chained(chain), crossed(chain), "not conjugate"
    yield "1,000 first values that all fail", lettered(1_000, 0), lettered(1_000, 1), "not conjugate"
    roots, fan = words_of(4), [z for _, z in words_of(11, 1_952)]
    others = [roots[0]] + roots[14:0:-1] + [roots[15]]
    yield "an atom of 56,002 words", layered(roots, fan), layered(others, fan), "conjugate x1"
    beside, last = layered(roots[:15], fan), roots[15]
    yield "such an atom beside one other and beside two", beside + placed(SHORT, [last]), beside + placed(SHORT, [behind(last, (1,))]) + placed(SHORT, [behind(last, (2,))]), "not conjugate"
    words, others = words_of(10, 176), words_of(10, 176)[::-1]
    yield "300 atoms of each of two kinds with equal ends, in opposite orders", atoms_of([STRAIGHT] * 300 + [CROSSED] * 300, words), atoms_of([STRAIGHT] * 300 + [CROSSED] * 300, others), "conjugate x1"
    yield "such atoms, of which one is of the other kind", atoms_of([STRAIGHT] * 300 + [CROSSED] * 300, words), atoms_of([STRAIGHT] * 299 + [CROSSED] * 301, others), "not conjugate"


def powers():
    """The name of two elements of G(n,1), n, their rows, the most seconds, and what `power` answers."""
    words = words_of(7)
    alike = atoms_of([STRAIGHT, CROSSED] * 28, words), atoms_of([STRAIGHT, CROSSED] * 28, words[::-1])
    yield "212 rows and a conjugate", 2, *alike, 1, "power 1 1 x1"
    yield "4,000 words whose rates have no ratio", 2, atoms_of([SHORT] * 2_000, words_of(10, 976)), atoms_of([UNEVEN] + [SHORT] * 1_999, words_of(10, 976)), 1, "power none"
    words = [(1, z) for z in all_letters(3, 7)]
    words = [behind(w, (c,)) for w in words[:527] for c in (1, 2, 3)] + words[527:]
    odd = [length for length in range(1, 81, 2)]
    primes = [p for p in odd[1:] if all(p % q for q in range(3, p, 2))]
    more = [max(p ** k for k in range(1, 5) if p ** k <= 80) for p in primes]
    others = odd + more + [1] * (3_241 - sum(odd) - sum(more))
    yield "3,241 words on cycles of 1 to 80 and others by which no prime will do", 3, cycled(words, [*range(1, 81), 1]), cycled(words, others), 10, "power none"


def asked():
    """The name of an element, its rows, and what the answers to questions on it begin with."""
    words = words_of(12, 904)
    ends = {"order": "order infinite", "profile": "none"}
    yield "5,050 words on cycles of 1 to 100 words", cycled(words_of(12, 954), range(1, 101)), {
        "types": "x1.1111111111111 cycle 1;x1.1111111111112 cycle 2;",
        "order": "refused: wide",
        "profile": "1:0 2:0 3:0 4:0",
        "parts p q": "parts 5050 1",
    }
    yield "one cycle of 5,000 words", cycled(words, [5_000]), {"types": "x1.1111111111111 cycle 5000;", "order": "order 5000", "profile": "5000:0"}
    yield "a chain of 4,998 words", chained(words), {
        "types": "x1.1111111111111 repeller 1 1;x1.1111111111112 passing 1:x1.2222222222222 4998:x1.11111111111112;",
        "parts p q": "parts 1 5001",
        "ponds": "none",
        **ends,
    }
    yield "a chain of 2,048 words, each with a letter more", lengthened(words_of(11, 2), 11), {
        "ponds": "none",
        "types": "x1.111111111111 repeller 1 1;x1.111111111112 passing 2048:x1.222222222222" + 2_047 * "1" + " 1:",
        **ends,
    }
    yield "a round of 2,048 attractors", rounded(words_of(11, 1), 11), {
        "types": "x1.111111111111 repeller 1 1;x1.111111111112 attractor 2048 " + 2_048 * "1" + ";",
        "ponds": "none",
        **ends,
    }
    yield "1,250 ponds of 5,000 words", ponded(words), {"ponds": "x1.11111111111112 2 x1.11111111111222;"}
    yield "a comb of 1,000 ponds, one in the other", combed(words_of(10), 1_000), {"ponds": "x1.11111111112 2 x1.22222121212;"}


def large_examples():
    """Examples of rows in lines, of products and of powers, with the last lines of their answers."""
    for name, example in (
        ("a line of 2,048 rows of a balanced basis, reduced", "balanced_basis"),
        ("a line of 250 rows of a one-sided basis, reduced", "one_sided_basis"),
        ("products, inverses and `equal` of elements of 3,500 rows, fifteen times", "products_of_many_rows"),
        ("the 100th power of an element of 192 rows, the 1000th of one of 3 rows", "powers_of_many_rows"),
    ):
        folder = LIMITS / example
        answers = (folder / "expected").read_text(encoding="ascii").splitlines()
        yield name, (folder / "script").read_text(encoding="ascii"), {}, 2, answers[-1]


def cases():
    """The name, the script, the files, the seconds, and what the last line of output begins with."""
    element = file_text(turned_words(13))
    most = file_text([(w, w) for w in words_of(16, 35_740)])
    yield "65,536 short lines", "group 2 1\nlet a = x1>x1\n" + "show a\n" * 65_534, {}, 1, "x1>x1"
    yield "ten loads of 8,192 rows", "group 2 1\n" + "load a a.ht\n" * 10, {"a.ht": element}, 2, "load a 8192"
    yield f"a file of {len(most)} bytes", "group 2 1\nload a a.ht\n", {"a.ht": most}, 2, "load a 1"
    yield from large_examples()
    basis = "group 2 1\nload a a.ht\nbasis a\n"
    yield "the basis of 4,700 words permuted", basis, {"a.ht": file_text(permuted(words_of(12, 604)))}, 1, "x1.1"
    for depth, most in (13, 0.5), (16, 3):
        yield f"the basis of an adding machine of depth {depth}", basis, {"a.ht": file_text(adding_machine(depth))}, most, "x1.1"
    yield "the basis of a comb of 1,001 rows permuted", basis, {"a.ht": file_text(permuted(comb(1_000)))}, 10, "x1"
    cycles = {"a.ht": file_text(cycled(words_of(12, 954), range(1, 101))), "b.ht": file_text(cycled(words_of(12, 954)[::-1], range(1, 101)))}
    yield "a conjugator of two elements of 5,050 words on cycles of 1 to 100 words", "group 2 1\nload a a.ht\nload b b.ht\nconj h a b\n", cycles, 2, "conjugate x1"
    short = {"a.ht": cycles["a.ht"], "b.ht": file_text(cycled(words_of(12, 954), [1] * 50 + [2] * 2_500))}
    yield "two such elements of other lengths", "group 2 1\nload a a.ht\nload b b.ht\nconj h a b\n", short, 2, "not conjugate"
    rng = random.Random(1974)
    some = {name: file_text(some_pair(rng, 2, 1, 599)) for name in ("a.ht", "h.ht")}
    yield "a conjugator of a random element of 600 rows and its conjugate by another", "group 2 1\nload a a.ht\nload h h.ht\nlet b = h^-1 a h\nconj k a b\n", some, 1, "conjugate x1"
    for name, a, b, last in conjugacy():
        yield f"conj of {name}", "group 2 1\nload a a.ht\nload b b.ht\nconj h a b\n", {"a.ht": file_text(a), "b.ht": file_text(b)}, 3, last
    for name, n, a, b, most, last in powers():
        yield f"power of {name}", f"group {n} 1\nload a a.ht\nload b b.ht\npower a b\n", {"a.ht": file_text(a, n), "b.ht": file_text(b, n)}, most, last
    rows = atoms_of([STRAIGHT, CROSSED] * 28, words_of(7))
    third = {"a.ht": file_text(rows), "h.ht": file_text(some_pair(random.Random(200), 2, 1, 199))}
    yield "power of an element of 212 rows and a conjugate of its third power", "group 2 1\nload a a.ht\nload h h.ht\nlet b = h^-1 a^3 h\npower a b\n", third, 2, "power 3 1 x1"
    chain = {"a.ht": file_text(chained(words_of(12, 904)))}
    for both, last in ("x1.11111111111112 x1.2222222222222", "4999"), ("x1.2222222222222 x1.11111111111112", "-4999"), ("x1.1111111111111 x1.222222222222", "none"):
        yield f"share {last} of a chain of 4,998 words", f"group 2 1\nload a a.ht\nshare a {both}\n", chain, 0.5, f"share {last}"
    for name, rows, answers in asked():
        file = {"a.ht": file_text(rows)}
        for command, last in answers.items():
            yield f"{command} of {name}", f"group 2 1\nload a a.ht\n{command} a\n", file, 1, last


def user_seconds():
    return resource.getrusage(resource.RUSAGE_CHILDREN).ru_utime


def limited():
    resource.setrlimit(resource.RLIMIT_AS, (MOST_BYTES, MOST_BYTES))


def timed(program, words, script, files):
    """The seconds of user time of a run, and the last line that it writes."""
    with tempfile.TemporaryDirectory() as folder:
        for file, text in files.items():
            Path(folder, file).write_text(text, encoding="ascii")
        before = user_seconds()
        done = subprocess.run([program, *words], input=script.encode(), stdout=subprocess.PIPE, cwd=folder, timeout=120, preexec_fn=limited)
        return user_seconds() - before, done.stdout.decode().rstrip("\n").rpartition("\n")[2]


def summary_job(size):
    """A script that asks what a summary does, and its files, by the rule of samples for so many words."""
    files = {f"{name}.ht": file_text(rows) for name, rows in zip("ahc", sample(1, size))}
    return "group 2 1\nload a a.ht\nload c c.ht\nbasis a\nbasis c\nconj h a c\norder a\npower a c\n", files


def runs():
    """The name, the words, the script, the files, the seconds, and what the last line of output begins with."""
    for name, *more in cases():
        yield name, ["--budget", "65536"], *more
    yield "the summary of a sample", ["--budget", "8000", "--sample", "1"], "", {}, 5, "power 16 16"
    for size in SIZES:
        yield f"what a summary asks, of {size:,} words", ["--budget", "65536"], *summary_job(size), 5, "power 16 16 "


def grows_slowly(program):
    """Whether a summary of twice the words takes at most three times as long: N log N would be 2.2 times."""
    small, large = (min(timed(program, ["--budget", "65536"], *summary_job(size))[0] for _ in range(3)) for size in SIZES)
    if large > 3 * small:
        print(f"times: a summary of twice the words takes {large:.3f} s and not {small:.3f} s")
    return large <= 3 * small


def main():
    program = os.path.abspath(sys.argv[1])
    wrong = 0
    for name, words, script, files, most, last in runs():
        took, answered = timed(program, words, script, files)
        for _ in range(2):
            if took > most:
                took = min(took, timed(program, words, script, files)[0])
        right = answered.startswith(last)
        if not right:
            print(f"times: {name}: the last answer is {answered[:60]}")
        if took > most:
            print(f"times: {name}: more than {most} s")
        wrong += not right or took > most
        print(f"times: {name}: {took:.3f} s")
    wrong += not grows_slowly(program)
    return 1 if wrong else 0


sys.exit(main())
