"""The best and the cheapest chains of any number by growth from the smallest part, for the independent program.

After a part of value v what is left is v × m, and the next part is v × q, where q = 2^x × 3^y is not 1 and divides m; then m / q − 1 is left
above it. No table over points and no remainders: only divisors.
"""
STEPS, GROWN, ANSWERS = {}, {0: 1}, {}


def forget():
    """Nothing is remembered from one number to the next: the memory would grow."""
    for memory in STEPS, GROWN, ANSWERS:
        memory.clear()
    GROWN[0] = 1


def divisors(m):
    """The pairs (x, y) with 2^x × 3^y dividing m."""
    x = y = 0
    while m % 2 ** (x + 1) == 0:
        x += 1
    while m % 3 ** (y + 1) == 0:
        y += 1
    return [(i, j) for i in range(x + 1) for j in range(y + 1)]


def path(x, y, from_part):
    """The letters of the points passed, b before a; the first is a part or not."""
    letters = "2" * y + "0" * x
    return chr(ord(letters[0]) + 1) + letters[1:] if from_part and letters else letters


def steps(m, from_part):
    """What can follow where m is left: (x, y, letters, what is left then)."""
    if (m, from_part) not in STEPS:
        STEPS[m, from_part] = [
            (x, y, path(x, y, from_part), m // (2**x * 3**y) - 1) for x, y in divisors(m) if not from_part or (x, y) != (0, 0)
        ]
    return STEPS[m, from_part]


def best_word(n, most_a, most_b, prices):
    """(parts, price, word, points from the smallest) of the best chain with doublings and triplings in the limits, or None."""
    if n == 0:
        return 0, 0, "", ()
    d, t, s2, s3 = prices
    known = {}

    def from_part(m, a, b):
        if m == 0:
            return 1, 0, "3", ((a, b),)
        if (m, a, b) not in known:
            known[m, a, b] = choose(m, a, b, True)
        return known[m, a, b]

    def choose(m, a, b, part):
        least = None
        for x, y, letters, left in steps(m, part):
            if a + x <= most_a and b + y <= most_b:
                rest = from_part(left, a + x, b + y)
                if rest is not None:
                    k, p, w, points = rest
                    # a part from which b rises has letter 3
                    s = s3 if y else s2
                    found = (k + part, p + d * x + t * y + s * part, letters + w, (((a, b),) if part else ()) + points)
                    if least is None or found[:3] < least[:3]:
                        least = found
        return least

    return choose(n, 0, 0, False)


def cheapest_of_each(n, most_a, most_b, prices):
    """By number of parts: (price, word) of the cheapest chain with so many parts and with doublings and triplings in the limits."""
    if n == 0:
        return {0: (0, "")}
    d, t, s2, s3 = prices
    known = {}

    def from_part(m, a, b):
        if m == 0:
            return {1: (0, "3")}
        if (m, a, b) not in known:
            known[m, a, b] = choose(m, a, b, True)
        return known[m, a, b]

    def choose(m, a, b, part):
        least = {}
        for x, y, letters, left in steps(m, part):
            if a + x <= most_a and b + y <= most_b:
                more = d * x + t * y + (s3 if y else s2) * part
                for k, (price, word) in from_part(left, a + x, b + y).items():
                    found = price + more, letters + word
                    least[k + part] = min(found, least.get(k + part, found))
        return least

    return choose(n, 0, 0, False)


def shares(n):
    """By number of parts: how many chains have so many."""
    known = {0: {1: 1}}

    def from_part(m):
        if m not in known:
            known[m] = summed(m, True)
        return known[m]

    def summed(m, part):
        total = {}
        for _, _, _, left in steps(m, part):
            for k, ways in from_part(left).items():
                total[k + part] = total.get(k + part, 0) + ways
        return total

    return summed(n, False) if n else {0: 1}


def grown(m):
    """How many chains grow from a part where m is left."""
    if m not in GROWN:
        GROWN[m] = sum(grown(left) for _, _, _, left in steps(m, True))
    return GROWN[m]


def before(m, word, part):
    """How many words from here on are before `word` in the dictionary."""
    if part and m == 0:
        return int("3" < word)
    total = 0
    for _, _, letters, left in steps(m, part):
        head = word[: len(letters)]
        if head == letters:
            total += before(left, word[len(letters) :], True)
        elif letters[: len(head)] < head:
            total += grown(left)
    return total


def best(n, limits, prices):
    """(position, parts, price, points from the largest), or None where no chain is within the limits."""
    most, most_a, most_b = limits
    key = (n, most_a, most_b, prices)
    if key not in ANSWERS:
        found = best_word(n, most_a, most_b, prices)
        if found is not None:
            k, p, word, points = found
            found = before(n, word, False) if n else 0, k, p, points[::-1]
        ANSWERS[key] = found
    found = ANSWERS[key]
    return found if found is not None and found[1] <= most else None
