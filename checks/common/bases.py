"""Semi-normal bases by their definition, for the searches beside this folder.

Rows are a tuple here, and reduced: so a word is carried exactly where some `from` word is a prefix of it.
"""
import itertools
from functools import lru_cache

from common.words import behind, moved, turned, under

# Words that leave a basis of so few words leave it within fewer steps.
MOST_STEPS = 120
# No word of such a basis has more letters.
MOST_LETTERS = 12


def is_under(u, basis):
    return any(under(u, x) for x in basis)


@lru_cache(maxsize=4096)
def trail(rows, u):
    """The words to which the powers from 0 on carry u, each with its first letters; none where some
    power carries it to no word."""
    words = set()
    for _ in range(MOST_STEPS):
        words.add((u[0], u[1][:MOST_LETTERS]))
        u = moved(rows, u)
        if u is None:
            return set()
    return words


def stays(rows, x, basis):
    """Whether each power from 0 on carries x to a word under the basis."""
    words = trail(rows, x)
    return len(words) > 0 and all(is_under(u, basis) for u in words)


def is_semi_normal(rows, basis):
    back = tuple(turned(rows))
    return all(stays(rows, x, basis) or stays(back, x, basis) for x in basis)


def all_bases(n, r, most):
    """All bases of at most so many expansions, by their number."""
    roots = frozenset((i, ()) for i in range(1, r + 1))
    levels = [{roots}]
    for _ in range(most):
        levels.append({basis - {x} | {behind(x, (c,)) for c in range(1, n + 1)} for basis in levels[-1] for x in basis})
    return levels


def all_pairs(n, r, most):
    """All pairs of bases of at most so many expansions."""
    for level in all_bases(n, r, most):
        for froms, tos in itertools.product(level, level):
            for order in itertools.permutations(sorted(tos)):
                yield list(zip(sorted(froms), order))


def least(rows, levels):
    """The number of expansions and the words of the basis that all others are under, or None."""
    semi_normal = [basis for level in levels for basis in level if is_semi_normal(rows, basis)]
    for expansions, level in enumerate(levels):
        for basis in level:
            if basis in semi_normal:
                assert all(is_under(x, basis) for other in semi_normal for x in other)
                return expansions, sorted(basis)
    return None
