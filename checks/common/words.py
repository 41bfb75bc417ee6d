"""Words, rows and their texts, straight from the definitions, for the searches beside this folder.

A word is a root and a tuple of letters; a row is a pair of words.
"""
import itertools


def text(word):
    root, letters = word
    return f"x{root}" + ("." + "".join(map(str, letters)) if letters else "")


def rows_text(rows):
    return ";".join(f"{text(u)}>{text(v)}" for u, v in rows)


def file_text(rows, n=2):
    """The element file of rows of G(n,1)."""
    lines = "".join(rows_text([row]) + "\n" for row in rows)
    return f"ht-element 1\ngroup {n} 1\nrows {len(rows)}\n{lines}end\n"


def turned_words(length):
    """The rows from each word of this length to the same letters in the other order: nothing merges."""
    return [((1, z), (1, z[::-1])) for z in all_letters(2, length)]


def parse_word(s):
    root, _, letters = s[1:].partition(".")
    return int(root), tuple(map(int, letters))


def parse(line):
    return [tuple(map(parse_word, row.split(">"))) for row in line.split(";")]


def under(u, v):
    return u[0] == v[0] and u[1][: len(v[1])] == v[1]


def behind(u, letters):
    return u[0], u[1] + tuple(letters)


def of_shape(n, r, w):
    return 1 <= w[0] <= r and all(1 <= c <= n for c in w[1])


def all_letters(n, length):
    return itertools.product(range(1, n + 1), repeat=length)


def all_words(n, r, length):
    return [(i, z) for i in range(1, r + 1) for z in all_letters(n, length)]


def longest(words):
    return max((len(w[1]) for w in words), default=0)


def is_basis(n, r, words):
    """Each word as long as the longest one is under exactly one place of the list: no place is under
    another, and the words of that length under the places are as many as there are."""
    length = longest(words)
    ordered = sorted(words)
    apart = all(of_shape(n, r, w) for w in words) and not any(under(v, u) for u, v in zip(ordered, ordered[1:]))
    return apart and sum(n ** (length - len(w[1])) for w in words) == r * n**length


def moved(rows, u):
    for s, t in rows:
        if under(u, s):
            return t[0], t[1] + u[1][len(s[1]):]
    return None


def turned(rows):
    return [(v, u) for u, v in rows]


def stepped(rows, k, u):
    """Where k steps lead, below 0 by the turned rows; None where some step has no row."""
    steps = rows if k >= 0 else turned(rows)
    for _ in range(abs(k)):
        u = moved(steps, u)
        if u is None:
            return None
    return u


def is_reduced(n, rows):
    """No n rows stand for the n children of one row."""
    table = set(rows)
    for (root, z), (toot, y) in rows:
        if z and y and all(((root, z[:-1] + (c,)), (toot, y[:-1] + (c,))) in table for c in range(1, n + 1)):
            return False
    return True


def is_canonical(n, r, rows):
    """A reduced pair in order of `from`."""
    froms, tos = [s for s, _ in rows], [t for _, t in rows]
    return is_basis(n, r, froms) and is_basis(n, r, tos) and froms == sorted(froms) and is_reduced(n, rows)


def some_letters(rng, n, length):
    return tuple(rng.randrange(1, n + 1) for _ in range(length))


def some_expanded(rng, n, words, size):
    """The words after some random expansions."""
    words = list(words)
    for _ in range(size):
        u = words.pop(rng.randrange(len(words)))
        words += [behind(u, (c,)) for c in range(1, n + 1)]
    return words


def some_basis(rng, n, r, size):
    """The roots after some random expansions."""
    return some_expanded(rng, n, [(i, ()) for i in range(1, r + 1)], size)


def some_pair(rng, n, r, size):
    """A random pair of bases, not reduced in general."""
    froms, tos = some_basis(rng, n, r, size), some_basis(rng, n, r, size)
    rng.shuffle(tos)
    return list(zip(froms, tos))


def some_element(rng, n, r, size):
    """Some words of a basis are permuted, and what is under the others is cut in two ways: none, some or
    all words."""
    words = some_basis(rng, n, r, size)
    rng.shuffle(words)
    cut = rng.choice([0, 0, rng.randrange(len(words) + 1), rng.randrange(len(words) + 1), len(words)])
    still, others = words[:cut], words[cut:]
    more = rng.randrange(4) if others else 0
    froms, tos = still + some_expanded(rng, n, others, more), some_expanded(rng, n, others, more)
    rng.shuffle(still)
    rng.shuffle(tos)
    return list(zip(froms, still + tos))


def some_torsion(rng, n, r, size):
    """The words of a basis are permuted."""
    words = some_basis(rng, n, r, size)
    return list(zip(words, rng.sample(words, len(words))))
