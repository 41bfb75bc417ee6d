"""The elements of a sample, made anew from its number by the rule; and those of other numbers of words."""
from common.powers import merged
from common.words import behind

MOST_LETTERS = 64


class Draws:
    """What the next numbers depend on."""

    def __init__(self, state):
        self.state = state

    def draw(self, k):
        """A number below k."""
        self.state = (6364136223846793005 * self.state + 1442695040888963407) % 2**64
        return (self.state >> 33) % k


def grown(draws, size):
    """So many words of a basis: at a drawn place or behind it, going round, the first word with room gives
    way to its two children, in its place."""
    words = [(1, ())]
    while len(words) < size:
        place = draws.draw(len(words))
        while len(words[place][1]) >= MOST_LETTERS:
            place = (place + 1) % len(words)
        words[place:place + 1] = [behind(words[place], (c,)) for c in (1, 2)]
    return words


def shuffled(draws, size):
    """The places below the size in a random order."""
    order = list(range(size))
    for i in range(size - 1, 0, -1):
        j = draws.draw(i + 1)
        order[i], order[j] = order[j], order[i]
    return order


def drift(u, v):
    return [(u, behind(u, (1,))), (behind(v, (1,)), behind(u, (2,))), (behind(v, (2,)), v)]


def wheel(t, u, v, y):
    return [(t, u), (u, behind(t, (1,))), (v, y), (behind(y, (1,)), behind(t, (2,))), (behind(y, (2,)), v)]


def group_rows(number, words):
    """How a group of eight words is moved within itself, by its number."""
    twos = [words[at:at + 2] for at in range(0, 8, 2)]
    if number % 4 == 0:
        return list(zip(words, words[1:] + words[:1]))
    if number % 4 == 1:
        return [row for u, v in twos for row in ((u, v), (v, u))]
    if number % 4 == 2:
        return [row for u, v in twos for row in drift(u, v)]
    return wheel(*words[:4]) + wheel(*words[4:])


def carried(images, u):
    """Where rows from words to their images send u, one of the words or a child of one."""
    root, z = u
    return images[u] if u in images else behind(images[root, z[:-1]], z[-1:])


def sample(number, size=4_000):
    """Rows of a, of h and of h^-1 a h, not reduced."""
    draws = Draws(number)
    first, second = grown(draws, size), grown(draws, size)
    order = shuffled(draws, size)
    images = {u: second[place] for u, place in zip(first, order)}
    a = [row for at in range(0, size, 8) for row in group_rows(at // 8, first[at:at + 8])]
    c = [(carried(images, u), carried(images, v)) for u, v in a]
    return a, list(images.items()), c


def row_count(rows):
    """The number of rows that are left when no two are the children of one row."""
    return len(merged(2, [(u[1], v) for u, v in rows]))
