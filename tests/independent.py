#!/usr/bin/env python3
"""The independent program: what the proved programs must print and reply, made by other roads than theirs.

    independent.py WHAT                     writes what the program of that name must print (or, for WHAT-stdin, what it must be given)
    independent.py --into FOLDER WHAT...    writes several such files, each under its name
    independent.py                          lists the WHATs

Small numbers: all chains from the definition, by search over divisors from the largest part down (chains_up_to, chains_of); their words
by walking the points; their order by sorting text. Any 64-bit number: the engine, tests/independent_engine.rs, which takes parts from the
largest down by what n leaves modulo the part taken last. test_best finds its best chains by growth from the smallest part too
(tests/grown.py), and test_limited some of its cheapest chains and counts. Tree words: the six lines as T-05 writes them, letters read on
parts and undone on parts (tree_words, read_back, tree_word_of). At every run check_003 holds the engine to the search, on whole lists,
check_one_price holds the replies to those that were stored when an addition had one price, check_no_exponents to those that were stored before
T-06, check_trees holds tree words to the chains that the search finds, check_exponents holds a and b of every part to its value, and
check_bench holds moves and walks to 003's section 2.3 and theorem 1 on the chains that the search finds.

Not shared with the crates:
- any code;
- their table of n halved a times and thirded b times, and its filling by remainders: the engine has no quotient of n;
- the six relations: check_003 tries them on the engine's counts;
- the two readers: here a pattern on text says whether a word is good;
- positions by adding up, along a word, the chains that turn off to a: here all words are compared as text, many at a time;
- the best chain's numeric keys: here parts, price and text are compared;
- the cheapest chain and the count within K parts by a table for each number of parts that are still allowed: here chains are counted and
  the cheapest is kept for each number of parts that they have, and K only chooses among these numbers;
- the run of a chain along its path, by doubling, tripling and adding modulo m: here n × x modulo m, in integers of any size;
- tree words by way of path words, with the letters 1 that are owed: here every letter multiplies or adds to the parts themselves, and a
  chain's tree word is found by undoing letters on its parts. No path word is used;
- the tree letter that n and the path's next rise decide: here both ways are tried, and exactly one word must come of it;
- the test of a tree word from its first letter on: here from its last letter back, which of its ends are tree words;
- a and b worked out of a part's number: here the part is looked up in the sorted list of points (TABLE), which holds them;
- moves and walks by arithmetic on rows as 64-bit numbers: here a chain is a set of points, an upward move is 003's words on this set, a
  downward move is found among the sets that an upward move may come from, each tried with the upward move, and a walk goes part by part;
- the test that a state is a chain of n, by bits of rows and a sum from the highest row down that stays below n: here values of any size.

Shared with the crates:
- the definitions of documents 01 and 02 and of 003, T-05's six lines among them, and the order of the refusals;
- what each number of a lent bench stands for, as crates/bench says, for the digests and to know what a spoiled one holds;
- that what follows a part sums to less than the part;
- that a best chain is best up to each of its points, so that one chain a point is enough; a cheapest one likewise, with one chain for each
  point and number of parts;
- that the letters between two parts are those of a run of b and a run of a. The engine writes them so, as crates/words does; word_of below
  walks point by point, and the engine's `position` knows no word that the two write differently;
- that a price may be added up letter by letter. The engine does, as crates/best does. `best` below holds the sum to price_of, which takes a
  and b from the largest part and counts letters 1 and 3 in the word that word_of walks. tests/grown.py needs no letter to tell the price of
  an addition: it is s3 where b rises to the next part, and s2 where only a does;
- that a chain at a position is found from its smallest part up: here part by part, in crates/ranking letter by letter;
- that K is tested only on the best chain within A and B, because fewest parts come first: `whole.filter` in the engine and the last line of
  tests/grown.py do so, as crates/best/src/choosing.rt does. listed_best below tests K on every chain of a list.
"""
import atexit
import functools
import itertools
import os
import random
import re
import select
import subprocess
import sys
import tempfile

import grown

HERE = os.path.dirname(os.path.abspath(__file__))
LIMIT = 2**64
SCRATCH = 512  # numbers that a scratch must have, and that are zero on return
SIZES = (SCRATCH, 513, 5248)  # scratches that the test programs lend: each is served
SHORT = 511  # one that is refused
LONGEST = 120  # seconds that the engine may take for an answer
FREE = (255, 255, 255)  # limits that exclude nothing
POINTS = [(a, b) for a in range(64) for b in range(41) if 2**a * 3**b < LIMIT]
VALUE = {p: 2 ** p[0] * 3 ** p[1] for p in POINTS}
TABLE = sorted(POINTS, key=lambda p: VALUE[p])
NUMBER = {p: i for i, p in enumerate(TABLE)}


def chains_up_to(most):
    """All chains of 0 to `most`, as lists of points, largest part first."""
    found = [[] for _ in range(most + 1)]
    small = [p for p in TABLE if VALUE[p] <= most]

    def extend(chain, total):
        found[total].append(chain)
        last = VALUE[chain[-1]]
        for q in small:
            v = VALUE[q]
            if v >= last or total + v > most:
                break
            if last % v == 0:
                extend(chain + [q], total + v)

    found[0].append([])
    for p in small:
        extend([p], VALUE[p])
    return found


def chains_of(n):
    """All chains of one n: the largest part, then each proper divisor that still leaves a sum of n within reach."""
    found = []

    def extend(chain, left):
        if left == 0:
            found.append(chain)
            return
        last = VALUE[chain[-1]] if chain else None
        for q in TABLE:
            v = VALUE[q]
            if v > left or (last is not None and v >= last):
                break
            # what is left after q is a sum of proper divisors of v, which is below v
            if left - v < v and (last is None or last % v == 0):
                extend(chain + [q], left - v)

    extend([], n)
    return found


def word_of(chain):
    """The walk from (0, 0) to the largest part through all parts, b before a wherever the parts allow both."""
    if not chain:
        return ""
    here, letters, waiting = (0, 0), "", sorted(chain)
    while True:
        is_part = here == waiting[0]
        if is_part:
            waiting = waiting[1:]
        if not waiting:
            return letters + "3"
        if here[1] < waiting[0][1]:
            letters += "3" if is_part else "2"
            here = (here[0], here[1] + 1)
        else:
            letters += "1" if is_part else "0"
            here = (here[0] + 1, here[1])


def chain_of(word):
    """The points that a word marks, largest first."""
    here, marked = (0, 0), []
    for letter in word:
        if letter in "13":
            marked.append(here)
        here = (here[0] + 1, here[1]) if letter in "01" else (here[0], here[1] + 1)
    return marked[::-1]


def sum_of(chain):
    return sum(2**a * 3**b for a, b in chain)


def exponents(chain):
    """a and b of the largest part, 2^a × 3^b; 0 and 0 for the empty chain."""
    return chain[0] if chain else (0, 0)


# ---- numbers of any size, by the engine


@functools.cache
def engine():
    """The engine, built and started at the first question. Its file may go once it runs. It is ended when this program ends."""
    source = os.path.join(HERE, "independent_engine.rs")
    with tempfile.TemporaryDirectory() as folder:
        program = os.path.join(folder, "engine")
        subprocess.run(["rustc", "--edition", "2021", "-O", "-o", program, source], check=True, timeout=600)
        running = subprocess.Popen([program], stdin=subprocess.PIPE, stdout=subprocess.PIPE, text=True)
    atexit.register(running.kill)
    return running


def ask(*question):
    """The fields of the engine's answer, or None; the empty word stands there as a dash."""
    program = engine()
    program.stdin.write(" ".join(str(field) or "-" for field in question) + "\n")
    program.stdin.flush()
    if not select.select([program.stdout], [], [], LONGEST)[0]:
        sys.exit(f"the engine does not answer {question}")
    told = program.stdout.readline()
    if not told.endswith("\n"):
        sys.exit(f"the engine ended at {question}")
    return None if told == "none\n" else ["" if field == "-" else field for field in told.split()]


def count(n):
    return int(ask("count", n)[0])


def position_of(word):
    """The number of chains before it in the list of its number."""
    return int(ask("position", sum_of(chain_of(word)), word)[0])


def word_at(n, position):
    """The word at a position below the count."""
    return ask("at", n, position)[0]


def price_of(chain, d, t, s2, s3):
    """Document 01's price with T-04's two prices of an addition: s2 at letter 1, s3 at letter 3. The last letter is no addition."""
    letters = word_of(chain)[:-1]
    return d * chain[0][0] + t * chain[0][1] + s2 * letters.count("1") + s3 * letters.count("3") if chain else 0


def best(n, parts, most_a, most_b, d, t, s2, s3):
    """The best chain's (parts, price, word), or None."""
    found = ask("best", n, parts, most_a, most_b, d, t, s2, s3)
    if found is None:
        return None
    k, price, word = int(found[0]), int(found[1]), found[2]
    chain = chain_of(word)
    assert sum_of(chain) == n and len(chain) == k and price_of(chain, d, t, s2, s3) == price
    return k, price, word


@functools.lru_cache(1000)
def shares(n):
    """How many chains of n have 0 parts, 1 part, and so on to 64."""
    return tuple(map(int, ask("shares", n)))


def count_up_to(n, most):
    """How many chains of n have at most so many parts."""
    return sum(shares(n)[: most + 1])


@functools.lru_cache(1000)
def cheapest_of_each(n, most_a, most_b, prices):
    """By number of parts: (price, word) of the cheapest chain with so many parts, the earliest of those with this price."""
    found = ask("cheapest", n, most_a, most_b, *prices) or []
    least = {int(k): (int(price), word) for k, price, word in zip(found[::3], found[1::3], found[2::3])}
    for k, (price, word) in least.items():
        chain = chain_of(word)
        assert sum_of(chain) == n and len(chain) == k and price_of(chain, *prices) == price
    return least


def cheapest(n, limits, prices):
    """The cheapest chain's (parts, price, word), or None: of those with at most K parts the lowest price, then the fewest parts."""
    most, most_a, most_b = limits
    least = min(((price, k, word) for k, (price, word) in cheapest_of_each(n, most_a, most_b, prices).items() if k <= most), default=None)
    return least and (least[1], least[0], least[2])


def pulled_apart(n, limits, prices):
    """Whether another chain is the best where s2 and s3 are exchanged."""
    d, t, s2, s3 = prices
    one, other = best(n, *limits, d, t, s2, s3), best(n, *limits, d, t, s3, s2)
    assert (one is None) == (other is None)
    return one is not None and one[2] != other[2]


def good(word):
    """Document 01's sentence, on text."""
    if word == "":
        return True
    return re.fullmatch("[0-3]*3", word) is not None and "02" not in word and "12" not in word


# ---- tree words: T-05, and 003's figure 1

# The letters that a number above 1 may have next, by its remainder modulo six.
SIX_LINES = {0: ("3", "1"), 1: ("1",), 2: ("2",), 3: ("3", "12"), 4: ("2", "13"), 5: ("12",)}
RISES = {"2": (1, 0), "3": (0, 1)}  # what a letter that multiplies adds to a and b of every part
ONE = [(0, 0)]  # the chain of 1
LONGEST_TREE = 157  # letters: those of the chain of 2^64 - 1 whose parts are all powers of two


def ways_from(n):
    """What the six lines allow from a number above 1: the letters, and the number that they go on with."""
    for letters in SIX_LINES[n % 6]:
        on = n
        for letter in letters:
            on = on - 1 if letter == "1" else on // int(letter)
        yield letters, on


def tree_words(n):
    """All tree words of n: where there are two ways, both are tried."""
    return [""] if n == 1 else [letters + word for letters, on in ways_from(n) for word in tree_words(on)]


def tree_count(n):
    """How many tree words n has: the numbers that its ways go on with have as many together. Each number is worked out once."""
    known = {1: 1}

    def counted(m):
        if m not in known:
            known[m] = sum(counted(on) for _, on in ways_from(m))
        return known[m]

    return counted(n)


def numbers_back(word):
    """The numbers that a word's ends are read back to, the shortest end first: 1, and then by each letter from the last back."""
    return itertools.accumulate(reversed(word), lambda n, letter: n + 1 if letter == "1" else n * int(letter), initial=1)


def tree_number(word):
    """The number that a word is read back to. It need not be a tree word of it."""
    return list(numbers_back(word))[-1]


def is_tree(word):
    """Whether the six lines produce the word from its number. From the last letter back it notes where a produced end begins."""
    begins = {len(word)}
    for at, n in zip(reversed(range(len(word))), itertools.islice(numbers_back(word), 1, None)):
        if any(word.startswith(letters, at) and at + len(letters) in begins for letters in SIX_LINES[n % 6]):
            begins.add(at)
    return 0 in begins


def powers_of_two(chain):
    """Their sum."""
    return sum(2**a for a, b in chain if b == 0)


def with_powers(chain, total):
    """The chain with other powers of two: those that sum to `total`."""
    return [p for p in chain if p[1] > 0] + [(a, 0) for a in range(total.bit_length(), -1, -1) if total >> a & 1]


def read_back(word):
    """The chain of a tree word: from 1, a letter 1 adds one to the sum of the powers of two, and 2 and 3 multiply every part."""
    chain = ONE
    for letter in reversed(word):
        if letter == "1":
            chain = with_powers(chain, powers_of_two(chain) + 1)
        else:
            chain = [(a + RISES[letter][0], b + RISES[letter][1]) for a, b in chain]
    return chain


def undone(chain, letter):
    """The parts that a letter made these of, or None where there are none."""
    if chain is None:
        return None
    if letter == "1":
        powers = powers_of_two(chain)
        return with_powers(chain, powers - 1) if powers else None
    x, y = RISES[letter]
    return [(a - x, b - y) for a, b in chain] if all(a >= x and b >= y for a, b in chain) else None


def tree_words_of(chain):
    """All tree words of its number that can be undone on the chain, letter by letter, to the end."""
    waiting, found = [(sum_of(chain), chain, "")], []
    while waiting:
        n, parts, word = waiting.pop()
        if n == 1:
            found.append(word)
            continue
        for letters, on in ways_from(n):
            below = functools.reduce(undone, letters, parts)
            if below is not None:
                waiting.append((on, below, word + letters))
    return found


def tree_word_of(chain):
    """The tree word of a chain with at least one part: there is exactly one, it is read back to the chain, and it is not too long."""
    (word,) = tree_words_of(chain)
    assert read_back(word) == chain and len(word) <= LONGEST_TREE
    return word


def listing(most):
    """For each n to `most`: its chains with their words, in dictionary order."""
    return [sorted((word_of(c), c) for c in chains) for chains in chains_up_to(most)]


def maxima(counts):
    """The first maxima: (n, count) wherever the count passes all counts before it."""
    top, found = 1, []
    for n, w in enumerate(counts):
        if w > top:
            top = w
            found.append((n, w))
    return found


BY_SEARCH = [65535, 65536, 10**6, 3**13 + 1, 2**20 * 3 - 1, 2**12 * 3**7]
CHECKED_LIMITS = [(64, 63, 40), (255, 255, 255), (2, 63, 40), (3, 63, 40), (64, 3, 2), (64, 63, 0), (64, 0, 40), (64, 5, 3), (0, 0, 0)]
CHECKED_PRICES = [(4, 7, 9, 9), (0, 0, 0, 0), (65535, 65535, 65535, 65535), (1, 0, 5, 2), (1, 0, 2, 5), (9, 1, 1, 4), (9, 1, 4, 1)]
CHECKED_PRICES += [(0, 0, 65535, 0), (0, 0, 0, 65535)]


def check_003():
    """What 003 and document 01 print, and what the engine answers, against the brute force."""
    lists = listing(400)
    counts = [len(l) for l in lists]
    assert maxima(counts)[:11] == list(
        zip([3, 9, 21, 27, 57, 81, 165, 171, 243, 333, 345], [2, 4, 5, 7, 10, 13, 17, 19, 21, 22, 25])
    )
    assert [w for w, _ in lists[19]] == "11003 1133 3013 3203".split()
    assert [w for w, _ in lists[27]] == "11013 13003 1333 21003 2133 2213 2223".split()
    assert [counts[n] for n in (0, 1, 3, 5, 6, 9, 19, 21, 27)] == [1, 1, 2, 1, 2, 4, 4, 5, 7]
    assert min(len(c) for _, c in lists[29]) == 3
    assert len(TABLE) == 1344 and [VALUE[p] for p in TABLE[:14]] == [1, 2, 3, 4, 6, 8, 9, 12, 16, 18, 24, 27, 32, 36]
    assert answer(LISTING) == REPLIES
    assert count((2**36 * 3**19 - 27) // 5) == 16152526311 and count(10**6) == 497 and count(3 * 2**62 - 1) == 1
    for n, entries in enumerate(lists):
        check_list(n, entries)
    check_apart(lists)
    check_exponents()
    check_one_price()
    check_no_exponents()
    check_trees(2000)
    check_bench()
    for n in BY_SEARCH:
        chains = chains_of(n)
        check_list(n, sorted((word_of(c), c) for c in chains))
        check_trees_of(n, chains)
    chance = random.Random(3)
    for n in [*EDGES, *SPECIAL, *(chance.getrandbits(64) for _ in range(100))]:
        check_relations(min(n, LIMIT - 6) // 6)
        check_back(n, chance)


def check_list(n, entries):
    """The engine's answers on a number against its whole list: the counts, each position, each chain, the best and the cheapest within limits.

    Every chain of the list runs to the same residue, which is that of x added up n times. With s2 = s3 = s a price is that of one s. A chain's
    reply from k on, made into a line of kind 04, gets this reply again.
    """
    assert count(n) == len(entries) and ask("at", n, len(entries)) is None
    assert all(count_up_to(n, most) == listed_up_to(entries, most) for most in range(256))
    for i, (word, chain) in enumerate(entries):
        assert good(word) and word_at(n, i) == word and position_of(word) == i and chain_of(word) == chain
        assert reply_to(b"04" + chain_reply(n, chain)[K_AT_REPLY:].encode()) == chain_reply(n, chain)
    assert len({word for word, _ in entries}) == len(entries)
    m, x = RUNS[n % len(RUNS)]
    assert {reply_to(run_line(m, x, numbers_of(c))) for _, c in entries} == {residue_reply(sum(itertools.repeat(x, n)) % m)}
    for i, limits in enumerate(CHECKED_LIMITS):
        prices = CHECKED_PRICES[(n + i) % len(CHECKED_PRICES)]
        least = listed_best(entries, limits, prices)
        assert best(n, *limits, *prices) == (least and (least[0], least[1], word_of(least[3])))
        for most in (*range(10), limits[0]):
            least = listed_cheapest(entries, (most, *limits[1:]), prices)
            assert cheapest(n, (most, *limits[1:]), prices) == (least and (least[0], least[1], word_of(least[3])))
    for (_, chain), (d, t, s, _) in itertools.product(entries, CHECKED_PRICES):
        a, b = exponents(chain)
        assert price_of(chain, d, t, s, s) == d * a + t * b + s * max(len(chain) - 1, 0)


def check_apart(lists):
    """s2 and s3 pull to different chains, first for 10: where only s2 is paid the best is 9 + 1, and where only s3 is paid 8 + 2."""
    only_s2, only_s3 = CHECKED_PRICES[-2:]
    assert listed_best(lists[10], FREE, only_s2)[3] == [(0, 2), (0, 0)] and listed_best(lists[10], FREE, only_s3)[3] == [(3, 0), (1, 0)]
    assert min(n for n in range(len(lists)) if pulled_apart(n, FREE, only_s2)) == 10


def times_divided(value, by):
    """How often a number can be divided without a remainder."""
    return 1 + times_divided(value // by, by) if value % by == 0 else 0


def check_exponents():
    """a and b of each part say how often its value can be halved and thirded. No part has bytes above 63 and 40.

    Some replies are written out: 18 + 1 with the bytes of 12 gets 16 in each of the three kinds, a sum of 2^64 or more gets 10 with any bytes,
    and the empty record gets 15 in kind 09 only with 0 and 0.
    """
    for chain in ([p] for p in TABLE):
        assert exponents(chain) == (times_divided(sum_of(chain), 2), times_divided(sum_of(chain), 3))
    assert max(a for a, _ in TABLE) == 63 and max(b for _, b in TABLE) == 40 and exponents([]) == (0, 0)
    run = "07" + "0000000000000065" + "0000000000000007"
    written = {"0402010200090000": chain_reply(19, [(1, 2), (0, 0)]), "0402020100090000": "10", "0902020100090000": "10"}
    written |= {run + "02010200090000": residue_reply(32), run + "02020100090000": "10", "04023E01052F0506": "0A", "04020000052F0506": "0A"}
    written |= {"09000000": "0F", "09000001": "10", "04000000": chain_reply(0, []), "04000100": "10", run + "000001": "10"}
    written |= {"0401FFFFFFFF": "08", "0402010200090009": "09"}
    for line, reply in written.items():
        assert reply_to(line.encode()) == reply, line


def check_one_price():
    """The 2,086 earlier lines of kind 02, with one price s for an addition: with s2 = s3 = s each gets its earlier reply, and as it stands 02.

    The earlier replies had no a and b. These are put in.
    """
    file, wanted = with_exponents("one_price")
    assert answer(with_price_twice(file)).encode() == wanted
    assert len(set(lines_of(file))) == 2086 and {reply_to(line) for line in lines_of(file)} == {"02"}


def check_no_exponents():
    """5,253 lines of kinds 03 to 09 that were stored before T-06: with a and b put in, each gets its earlier reply with a and b put in.

    As they stand, those of kinds 04, 07 and 09 get 02.
    """
    file, wanted = with_exponents("no_exponents")
    assert answer(file).encode() == wanted
    earlier = lines_of(stored("no_exponents_lines"))
    assert len(set(earlier)) == 5253 and {reply_to(line) for line in earlier if line[:2] in K_AT} == {"02"}


def check_trees(most):
    """The four words of figure 1; all tree words of numbers to `most`; which words of up to eight letters are tree words; the longest."""
    assert sorted(tree_words(19)) == sorted("1112222 1112213 1332 131122".split()) and tree_words(1) == [""]
    for n, chains in enumerate(chains_up_to(most)):
        if n:
            check_trees_of(n, chains)
    # a word of eight letters is read back to 3^8 at most
    trees = {word for n in range(1, 3**8 + 1) for word in tree_words(n) if len(word) <= 8}
    assert trees == {word for word in short_words(8) if is_tree(word)}
    assert tree_word_of(LONGEST_CHAIN) == "12" + "11122" * 31 and {len(tree_word_of(c)) for c in LONGEST_CHAINS} == {LONGEST_TREE}


def check_trees_of(n, chains):
    """Read back, the tree words of n are all its chains, each once. Each chain leads to its word again, and the word to its number."""
    trees = tree_words(n)
    assert sorted(map(read_back, trees)) == sorted(chains) and tree_count(n) == len(trees)
    assert all(tree_number(word) == n and is_tree(word) and tree_word_of(read_back(word)) == word for word in trees)


def check_relations(u):
    """003's relations 6 and 7, which the engine does not use."""
    w = count
    assert w(6 * u) == w(6 * u + 1) == w(2 * u) + w(3 * u) - w(u)
    assert w(6 * u + 2) == w(3 * u + 1) and w(6 * u + 3) == w(3 * u + 1) + w(2 * u + 1)
    assert w(6 * u + 4) == w(3 * u + 2) + w(2 * u + 1) and w(6 * u + 5) == w(3 * u + 2)


def check_back(n, chance):
    """A position and its word lead to each other, and words ascend with their positions; a word with another sum has no position.

    The chains found run to one residue. There are as many tree words as chains, and each chain found has one that leads back.
    """
    assert tree_count(n) == count(n)
    positions = sorted({0, count(n) - 1, *(chance.randrange(count(n)) for _ in range(3))})
    words = [word_at(n, i) for i in positions]
    assert words == sorted(words) and ask("at", n, count(n)) is None
    m, x = RUNS[n % len(RUNS)]
    assert {reply_to(run_line(m, x, numbers_of(chain_of(word)))) for word in words} == {residue_reply(n * x % m)}
    for i, word in zip(positions, words):
        chain = chain_of(word)
        assert good(word) and word_of(chain) == word and sum_of(chain) == n and position_of(word) == i
        assert ask("position", n ^ 1, word) is None
        assert is_tree(tree_word_of(chain)) and tree_number(tree_word_of(chain)) == n


# ---- lines and replies


def chain_reply(n, chain, price=None):
    a, b = exponents(chain)
    text = f"00{n:016X}{position_of(word_of(chain)):016X}{len(chain):02X}{a:02X}{b:02X}" + "".join(f"{NUMBER[p]:04X}" for p in chain)
    return text if price is None else text + f"{price:08X}"


def residue_reply(residue):
    return f"00{residue:016X}"


def refusal_of_record(numbers):
    """The number of the refusal that a record gets, or None."""
    if len(numbers) > 64 or any(i >= len(TABLE) for i in numbers):
        return 8
    values = [VALUE[TABLE[i]] for i in numbers]
    if any(x <= y or x % y for x, y in zip(values, values[1:])):
        return 9
    return 10 if sum(values) >= LIMIT else None


def refusal_of_line(numbers, a, b):
    """The same for a record in a line, which has two bytes more: T-06's refusal 16 comes after the record's own."""
    refusal = refusal_of_record(numbers)
    if refusal:
        return refusal
    return None if (a, b) == exponents([TABLE[i] for i in numbers]) else 16


def reply_to_record(numbers, a, b):
    refusal = refusal_of_line(numbers, a, b)
    if refusal:
        return f"{refusal:02X}"
    chain = [TABLE[i] for i in numbers]
    return chain_reply(sum_of(chain), chain)


def reply_to_run(m, x, numbers, a, b):
    """The residue of n × x, where n is the sum of the parts: no path is followed."""
    if not 1 <= m <= 2**63:
        return "0D"
    if x >= m:
        return "0E"
    refusal = refusal_of_line(numbers, a, b)
    return f"{refusal:02X}" if refusal else residue_reply(sum(VALUE[TABLE[i]] for i in numbers) * x % m)


def reply_to_word(letters, following):
    word = "".join(map(chr, (48 + l if l < 75 else 123 for l in letters)))
    if not good(word):
        return "07"
    chain = chain_of(word)
    n = sum_of(chain)
    if n >= LIMIT:
        return "0A"
    if not following:
        return chain_reply(n, chain)
    position = position_of(word) + 1
    return chain_reply(n, chain_of(word_at(n, position))) if position < count(n) else "0B"


def reply_to_tree(letters):
    """A letter that is none comes first, then the number, then the six lines."""
    if any(not 1 <= letter <= 3 for letter in letters):
        return "0F"
    word = text_of(letters)
    n = tree_number(word)
    if n >= LIMIT:
        return "0A"
    if not is_tree(word):
        return "0F"
    chain = read_back(word)
    assert tree_word_of(chain) == word and sum_of(chain) == n
    return chain_reply(n, chain)


def reply_to_tree_of(numbers, a, b):
    """The tree word of a record's chain. The empty chain has none, which is the last refusal."""
    refusal = refusal_of_line(numbers, a, b) or (None if numbers else 15)
    if refusal:
        return f"{refusal:02X}"
    word = tree_word_of([TABLE[i] for i in numbers])
    return f"00{len(word):02X}" + "".join(f"{int(letter):02X}" for letter in word)


def reply_to(line):
    """The reply to one line of a file, given without its byte 10."""
    if len(line) == 0 or len(line) % 2 or len(line) > 514:
        return "02"
    if not re.fullmatch(rb"[0-9A-Fa-f]*", line):
        return "03"
    data = bytes.fromhex(line.decode())
    kind = data[0]
    counted_at = 17 if kind == 7 else 1
    more = data[counted_at] if len(data) > counted_at else 0
    lengths = {1: 9, 2: 20, 3: 17, 4: 4 + 2 * more, 5: 2 + more, 6: 2 + more, 7: 20 + 2 * more, 8: 2 + more, 9: 4 + 2 * more}
    if kind not in lengths:
        return "04"
    if len(data) != lengths[kind]:
        return "02"
    number = lambda i, k: int.from_bytes(data[i : i + k], "big")
    if kind == 1:
        return f"00{count(number(1, 8)):016X}"
    if kind == 2:
        found = best(number(1, 8), *data[9:12], *(number(i, 2) for i in (12, 14, 16, 18)))
        return chain_reply(number(1, 8), chain_of(found[2]), found[1]) if found else "05"
    if kind == 3:
        n, position = number(1, 8), number(9, 8)
        return chain_reply(n, chain_of(word_at(n, position))) if position < count(n) else "06"
    if kind in (4, 7, 9):
        a, b = data[counted_at + 1 : counted_at + 3]
        numbers = [number(counted_at + 3 + 2 * i, 2) for i in range(more)]
        if kind == 7:
            return reply_to_run(number(1, 8), number(9, 8), numbers, a, b)
        return reply_to_record(numbers, a, b) if kind == 4 else reply_to_tree_of(numbers, a, b)
    return reply_to_tree(data[2:]) if kind == 8 else reply_to_word(list(data[2:]), kind == 6)


def lines_of(file):
    """The lines of a file: each ends at a byte 10, a last one may lack it."""
    lines = file.split(b"\n")
    return lines[:-1] if lines[-1] == b"" else lines


def answer(file):
    return "".join(reply_to(line) + "\n" for line in lines_of(file))


# ---- files to answer


def hexed(*fields):
    """A line from (value, bytes) pairs."""
    return "".join(f"{value:0{2 * size}X}" for value, size in fields).encode()


def best_line(n, limits, prices):
    return hexed((2, 1), (n, 8), *((x, 1) for x in limits), *((x, 2) for x in prices))


def letters_line(kind, letters, k=None):
    """With another count than there are letters, where one is named."""
    return hexed((kind, 1), (len(letters) if k is None else k, 1), *((letter, 1) for letter in letters))


def word_line(kind, word):
    return letters_line(kind, [int(letter) for letter in word])


def numbers_of(chain):
    return [NUMBER[p] for p in chain]


def largest_of(numbers):
    """a and b of the part that a record begins with; 0 and 0 where there is none."""
    return TABLE[numbers[0]] if numbers and numbers[0] < len(TABLE) else (0, 0)


def fields_of(numbers, k, largest):
    """What the lines with a record end in: k, a and b, and the numbers. Another k, and another a and b, are taken where they are named."""
    a, b = largest_of(numbers) if largest is None else largest
    return (len(numbers) if k is None else k, 1), (a, 1), (b, 1), *((i, 2) for i in numbers)


def record_of(kind, numbers, k=None, largest=None):
    """A line of kind 04 or 09."""
    return hexed((kind, 1), *fields_of(numbers, k, largest))


def chain_line(chain, kind=4):
    return record_of(kind, numbers_of(chain))


def tree_lines(chain):
    """A chain as kind 09, and its tree word as kind 08, which the empty chain lacks."""
    yield chain_line(chain, 9)
    if chain:
        yield word_line(8, tree_word_of(chain))


def run_line(m, x, numbers, k=None, largest=None):
    return hexed((7, 1), (m, 8), (x, 8), *fields_of(numbers, k, largest))


def record_lines(numbers, largest=None, k=None):
    """The same record in kinds 04, 07 and 09."""
    yield record_of(4, numbers, k, largest)
    yield run_line(2**63 - 25, 10**18, numbers, k, largest)
    yield record_of(9, numbers, k, largest)


K_AT = {b"04": 2, b"07": 34, b"09": 2}  # by kind, at which digit of a line k stands: a and b follow it
K_AT_REPLY = 34


def without_exponents(line):
    """A line of kind 04, 07 or 09 as it was before T-06, when a and b did not stand after k."""
    at = K_AT[line[:2]] + 2
    return line[:at] + line[at + 4 :]


def small_file(most):
    """Every kind for all numbers to `most`, with every position and one past it. All chains of a number run on one residue."""
    for n in range(most + 1):
        m, x = RUNS[n % len(RUNS)]
        yield hexed((1, 1), (n, 8))
        yield best_line(n, FREE, (n % 11, n % 7, n % 5, n % 3))
        yield best_line(n, (n % 4, n % 6, n % 3), PRICES[0])
        for position in range(count(n) + 1):
            yield hexed((3, 1), (n, 8), (position, 8))
        for position in range(count(n)):
            word = word_at(n, position)
            yield chain_line(chain_of(word))
            yield word_line(5, word)
            yield word_line(6, word)
            yield run_line(m, x, numbers_of(chain_of(word)))
            yield from tree_lines(chain_of(word))


def refused_file():
    """Each refusal, and lines that qualify for two: the first by document 01's order is given."""
    good_line = hexed((1, 1), (19, 8))
    for length in (0, 1, 2, 3, 16, 17, 19, 20, 512, 513, 514, 515, 516, 600, 100000):
        yield b"0" * length
        yield b"01" * (length // 2) + b"g" * (length % 2)
    for byte in [0, 9, 13, 32, 47, 58, 64, 71, 96, 97, 102, 103, 127, 128, 255]:
        yield good_line[:-1] + bytes([byte])
        yield bytes([byte])
        yield bytes([byte]) * 2
        yield bytes([byte]) + good_line
    yield good_line + b"\r"
    # kinds that there are not, and 07 to 09, which have another length
    for kind in (0, 7, 8, 9, 10, 11, 127, 128, 255):
        yield hexed((kind, 1))
        yield hexed((kind, 1), (19, 8))
        yield hexed((kind, 1), (19, 8)) + b"x"
    for kind in range(1, 10):
        for extra in range(0, 22):
            yield hexed((kind, 1)) + b"00" * extra
    # a character that is none against the length of the kind, and against each kind's own refusals
    for text in (b"01" + b"0" * 10 + b"g0", b"02" + b"0" * 15 + b"G", b"03" + b"0" * 31 + b"`", b"04023F00FFFFFFF\x00", b"050104" + b"\r0"):
        yield text
    # 8 against 9 and 10, 9 against 10
    for numbers in ([1344, 1344], [1343, 1343], [1343, 1344], [0, 1343, 1344], [1343, 1343, 2000], [0, 1343, 1343]):
        yield record_of(4, numbers)
    # to 126 numbers fit in a line
    for k in (0, 1, 2, 63, 64, 65, 66, 125, 126, 127):
        for numbers in ([0] * k, [1344] * k, list(range(k, 0, -1)), [65535] + [0] * (k - 1) if k else []):
            yield record_of(4, numbers)
    for k in (127, 128, 200, 255):
        for there in (126, 127, 1):
            yield record_of(4, [0] * there, k)
    twos = [(a, 0) for a in range(63, -1, -1)]
    for chain in ([(62, 1), (61, 1)], [(63, 0), (62, 0)], [(62, 1), (61, 0)], twos, twos[:63], [(0, 0), (1, 0)], [(3, 1), (3, 1)]):
        yield chain_line(chain)
    for word in ("", "3", "0", "2", "02", "12", "023", "123", "303", "13", "33", "4", "43", "34", "0" * 63 + "3", "0" * 64 + "3"):
        yield word_line(5, word)
        yield word_line(6, word)
    for letter, k in ((0, 254), (1, 254), (2, 254), (3, 254), (1, 63), (1, 64), (2, 40), (2, 41), (3, 40), (3, 41)):
        yield word_line(5, str(letter) * k + "3")
        yield word_line(6, str(letter) * k + "3")
    for letters in ([255], [3, 255], [255, 3], [4, 3], [16, 3], [3, 19, 3]):
        for kind in (5, 6):
            yield hexed((kind, 1), (len(letters), 1), *((l, 1) for l in letters))
    for n in EDGES + SPECIAL + [0, 1]:
        yield hexed((1, 1), (n, 8))
        for position in (0, count(n) - 1, count(n), LIMIT - 1):
            yield hexed((3, 1), (n, 8), (position, 8))
        for limits in LIMITS + EDGE_LIMITS:
            yield best_line(n, limits, PRICES[n % 6])


TWOS = [NUMBER[a, 0] for a in range(63, -1, -1)]  # 64 parts, which sum to 2^64 - 1
THREES = [NUMBER[0, b] for b in range(40, -1, -1)]
OVER = [NUMBER[62, 1], NUMBER[61, 1]]  # sums to 2^64 or more
RECORDS = [[], [0], [1], [2], [NUMBER[3, 2], NUMBER[1, 1]], [1343], TWOS, THREES]
RECORDS += [[1344], [0, 1344], [0, 1], OVER, [1343, 1343]]  # refused: 8, 8 before 9, 9, 10, 9 before 10
MODULI = [0, 1, 2, 3, 2**63 - 1, 2**63, 2**63 + 1, 2**64 - 1]
RUNS = [(2**63, 2**63 - 1), (2**63 - 1, 2**63 - 2), (1, 0), (2**63 - 25, 10**18), (2, 1), (2**63 - 1, 2**62), (3, 2), (97, 96)]
RUNS += [(10**9 + 7, 123456789), (2**62 + 1, 2**62), (2**63, 1)]


def residues_at(m):
    """Each x at the edges of what a modulus takes, and the largest there is."""
    return sorted({x for x in (0, 1, m - 1, m, m + 1, LIMIT - 1) if 0 <= x < LIMIT})


def run_file():
    """Lines of kind 07: m and x at their edges with records good and refused, so that 13, 14, 8, 9 and 10 meet; then lengths."""
    for numbers in RECORDS:
        for m in MODULI:
            for x in residues_at(m):
                yield run_line(m, x, numbers)
    # of the right length, with 64 parts and more: to 118 they fit in a line
    fields = [(2**63, 2**63 - 1), (2**63 - 1, 2**63 - 2), (1, 0)]
    refused_fields = [(0, 0), (2**63 + 1, 2**63), (2**64 - 1, 2**64 - 1), (2**63, 2**63), (3, 4)]
    for numbers in ([0] * 64, [0] * 65, [*TWOS, 0], [1, *TWOS], [1344] * 65, [0] * 66, [0] * 118, [1344] * 118, [0] * 119, [0] * 120):
        for m, x in fields + refused_fields:
            yield run_line(m, x, numbers)
    # a count that is one too many or too few, or much too many; the fields are good or refused
    for k in (0, 1, 2, 41, 63, 64, 65, 117, 118, 119, 120, 127, 128, 255):
        for there in (k - 1, k + 1, 118):
            if 0 <= there <= 118 and there != k:
                for m, x in fields[1], refused_fields[0], refused_fields[4]:
                    yield run_line(m, x, (TWOS * 2)[:there], k)
    # a byte too few or too many: with 118 numbers and a byte, and with 119 without one, the line has 514 characters
    for numbers in ([], [0], TWOS, [0] * 118, [0] * 119):
        for m, x in fields[1], refused_fields[0], refused_fields[4]:
            yield run_line(m, x, numbers)[:-2]
            yield run_line(m, x, numbers) + b"00"
    # a second byte that would be the right count for kind 04, with the right count and a wrong one for kind 07
    for k in (0, 1, 2, 64, 118):
        yield run_line((8 + k) * 2**56, 1, (TWOS * 2)[:k])
        yield run_line((8 + k) * 2**56, 1, (TWOS * 2)[:k], k + 1)
    # a character that is none, in each field
    for line in (run_line(2**63 - 1, 2**63 - 2, [9, 0]), run_line(0, 1, [1344]), run_line(0, 1, [1344])[:-2]):
        for at in (0, 1, 2, 17, 18, 33, 34, 35, 36, 37, 38, 39, 40, len(line) - 1):
            yield line[:at] + b"G" + line[at + 1 :]
    # the other kinds' lines as kind 07, and kind 07's as others
    for line in (*LISTING.split(b"\n")[:5], best_line(0, (0, 0, 0), (0, 0, 1, 0)), word_line(6, "3013")):
        yield b"07" + line[2:]
    for kind in (0, 1, 2, 3, 4, 5, 6, 8, 9, 10, 15, 23, 112, 135, 255):
        yield hexed((kind, 1)) + run_line(97, 96, [9, 0])[2:]
        yield hexed((kind, 1)) + run_line(0, 1, [1344])[2:]


def some_limits(chance):
    return chance.choice((FREE, (chance.randrange(22), 63, 40), (64, chance.randrange(64), chance.randrange(41))))


def some_price(chance):
    return chance.choice((0, 1, 65535, chance.getrandbits(16)))


def pulling(bits, times):
    """`times` random numbers of at most `bits` bits, with limits and prices for which exchanging s2 and s3 changes the best chain."""
    chance = random.Random(bits)
    drawn = ((chance.getrandbits(bits), some_limits(chance), [some_price(chance) for _ in range(4)]) for _ in itertools.count())
    return itertools.islice((asked for asked in drawn if pulled_apart(*asked)), times)


PRICED = [(n, FREE) for n in (0, 1, 10, 19, 29, 65535, 10**6, 3**40 - 1, (2**36 * 3**19 - 27) // 5, 3 * 2**62 - 1, 2**64 - 1)]
PRICED += [(2**64 - 1, (64, 63, 0)), ((3**41 - 1) // 2, (64, 0, 40))]  # 64 parts with letters 1, and 41 with letters 3


def price_file():
    """Lines of kind 02 with two prices for an addition: pairs that get different chains, prices at their edges, lengths."""
    # s2 and s3, these exchanged, and s2 twice
    for bits in (6, 10, 16, 32, 48, 64):
        for n, limits, (d, t, s2, s3) in pulling(bits, 20):
            for additions in (s2, s3), (s3, s2), (s2, s2):
                yield best_line(n, limits, (d, t, *additions))
    for (n, limits), prices in itertools.product(PRICED, itertools.product((0, 65535), repeat=4)):
        yield best_line(n, limits, prices)
    yield from price_lengths()


def price_lengths():
    """From 18 bytes to 22, where a chain fits and where none does: the length of the kind comes before 5, and a bad character before the length."""
    for n, limits in [*EXAMPLES, (3 * 2**62 - 1, (62, 63, 40)), (3 * 2**62 - 1, (63, 63, 40))]:
        line = best_line(n, limits, PRICES[3])
        for text in (line[:-4], line[:-3], line[:-2], line[:-1], line, line + b"0", line + b"00", line + b"000", line + b"0000"):
            yield text
            yield text[:-1] + b"G"
    # lines that fit kinds 02 and 07, with a and b that are right and wrong; then lines that fitted both earlier
    m, x = 2**63 - 1, 0x403F280004000700
    fitting = [run_line(m, x, [], largest=largest) for largest in ((0, 0), (0, 9), (9, 0))]
    for line in (*fitting, *(without_exponents(run_line(m, x, numbers)) for numbers in ([9], []))):
        yield line
        yield b"02" + line[2:]


LONGEST_CHAIN = [TABLE[i] for i in TWOS]  # of 2^64 - 1: its tree word has 157 letters, and there is no longer one
# It, and it without one part whose a is odd, up to 61: these have tree words of 157 letters too.
LONGEST_CHAINS = [LONGEST_CHAIN, *([p for p in LONGEST_CHAIN if p != (a, 0)] for a in range(1, 63, 2))]


def short_words(most):
    """All words over 1 to 3 of up to so many letters."""
    return ("".join(word) for k in range(most + 1) for word in itertools.product("123", repeat=k))


def some_chain(n, chance):
    return chain_of(word_at(n, chance.randrange(count(n))))


def altered(word, chance):
    """A word with one change at one place: another letter, a letter more or less, or two letters exchanged."""
    at, letter = chance.randrange(len(word) + 1), chance.choice("123")
    before, here, after = word[:at], word[at : at + 1], word[at + 1 :]
    return chance.choice((before + letter + after, before + letter + here + after, before + after, before + after[:1] + here + after[1:]))


def same_chain(word):
    """Words that are read back to the same chain, so they are no tree words: read back, 21 and 112 do the same, and so do 2 and 1 at the end."""
    for old, new in ("21", "112"), ("112", "21"):
        for at in range(len(word)):
            if word.startswith(old, at):
                yield word[:at] + new + word[at + len(old) :]
    if word.endswith("2"):
        yield word[:-1] + "1"


def tree_file():
    """Lines of kinds 08 and 09: all short words, words of every size with small faults, records, and all chains of 201 to 500."""
    yield from (word_line(8, word) for word in short_words(8))
    yield from tree_letters()
    yield from tree_edges()
    yield from tree_lengths()
    yield from near_trees()
    yield from tree_records()
    for chains in chains_up_to(500)[201:]:
        for chain in chains:
            yield from tree_lines(chain)


def tree_letters():
    """A letter that is none, at the first place, in the middle and at the last: in tree words, in others, and in words that reach 2^64."""
    long = tree_word_of(LONGEST_CHAIN)
    for word in ("", "2", "1", "1332", "1112213", "1111", "3333333", long, "1" + long, "2" * 64, "3" * 41, "1" * 254, "2" * 254, "3" * 254):
        letters = [int(letter) for letter in word]
        for letter, at in itertools.product((0, 4, 255), sorted({0, len(word) // 2, len(word)})):
            yield letters_line(8, letters[:at] + [letter] + letters[at:])
    # digits as text, each bit of a byte, and letters that are none alone
    for letter in (*b"123", *(2**i for i in range(8)), *(2**i + 1 for i in range(2, 8)), 17, 18, 19, 48, 254):
        yield letters_line(8, [1, letter, 2])
    for letter in (0, 4, 255):
        yield letters_line(8, [letter] * 255)


def tree_edges():
    """Words whose numbers reach 2^64 or just do not. A product that is cut to 64 bits would often be a small number again."""
    top = LIMIT - 1
    for letter, last in ("1", top), ("2", top // 2), ("3", top // 3):
        for n in range(last - 2, min(last + 3, LIMIT)):
            for position in sorted({0, count(n) // 2, count(n) - 1}):
                word = tree_word_of(chain_of(word_at(n, position)))
                yield from (word_line(8, front + letter + word) for front in ("", "1", "2", "3", "11", "33"))
    for chain in LONGEST_CHAINS:
        yield from tree_lines(chain)
    for n in EDGES + SPECIAL:
        for position in sorted({0, count(n) - 1}):
            yield from tree_lines(chain_of(word_at(n, position)))


def long_words(long):
    """Words of one letter, words of one letter in front of others, and the first and last letters of some; `long` is a longest tree word."""
    for k in (39, 40, 41, 42, 62, 63, 64, 65, 66, 127, 128, 156, 157, 158, 159, 160, 161, 254, 255):
        for end in ("", "2" * 62, "2" * 63, "3" * 40, "12" * 31, long[2:], long[:-3], long):
            yield from (letter * (k - len(end)) + end for letter in "123")
            yield from (end[:k], end[-k:])


def tree_lengths():
    """Words with the lengths of the longest ones; counts that are not those of the letters; lines that end too early or too late."""
    long = tree_word_of(LONGEST_CHAIN)
    yield from (word_line(8, word) for word in dict.fromkeys(long_words(long)))
    for word, k in itertools.product(("", "2", "1332", long, "1" * 255), (0, 1, 2, 3, 4, 5, 156, 157, 158, 254, 255)):
        if k != len(word):
            yield letters_line(8, [int(letter) for letter in word], k)
    # characters more or less, and one that is none
    for line in (*(word_line(8, word) for word in ("1332", "11", "", long)), record_of(9, [9, 0]), record_of(9, [])):
        yield from (line[:-1], line + b"0", line + b"00", line + b"02")
        yield from (line[:at] + b"G" + line[at + 1 :] for at in (0, 1, 2, len(line) - 1))


def near_trees():
    """Random tree words with one change, at about every place, and other words that are read back to the same chain."""
    chance = random.Random(8)
    for bits in (8, 16, 24, 32, 48, 64):
        for _ in range(6):
            chain = some_chain(chance.randrange(1, 2**bits), chance)
            word, others = tree_word_of(chain), list(same_chain(tree_word_of(chain)))
            assert all(read_back(other) == chain and not is_tree(other) for other in others)
            yield from tree_lines(chain)
            yield from (word_line(8, other) for other in dict.fromkeys([*(altered(word, chance) for _ in word), *others]))


def tree_records():
    """Kind 09: records at 2^64 and refused ones, the empty one among them; wrong counts of numbers; the other kinds' lines as 08 and 09."""
    for numbers in RECORDS:
        yield record_of(9, numbers)
    # 2^64 and more, and 2^64 - 1
    for chain in ([(62, 1), (62, 0)], [(62, 1), (61, 1)], [(62, 1), *LONGEST_CHAIN[1:]], [(62, 1), *LONGEST_CHAIN[2:]]):
        yield chain_line(chain, 9)
    # 8 against 9 and 10, 9 against 10
    for numbers in ([1344, 1344], [1343, 1343], [1343, 1344], [0, 1343, 1344], [1343, 1343, 2000], [0, 1343, 1343], [65535], [256], [0, 0]):
        yield record_of(9, numbers)
    for k in (1, 2, 40, 41, 63, 64, 65, 66, 126, 127):
        for numbers in ([0] * k, [1344] * k, (TWOS * 2)[:k], (TWOS * 2)[-k:], (THREES * 4)[:k], list(range(k, 0, -1))):
            yield record_of(9, numbers)
    for numbers, k in itertools.product(([], [0], TWOS, TWOS[1:], [0] * 126), (0, 1, 2, 63, 64, 65, 125, 126, 127, 128, 255)):
        if k != len(numbers):
            yield record_of(9, numbers, k)
    for line in (*LISTING.split(b"\n")[:5], word_line(5, "3203"), word_line(5, "1133"), word_line(6, "3013"), run_line(97, 96, [9, 0])):
        yield from (b"08" + line[2:], b"09" + line[2:])
    for line in (*tree_lines([(1, 2), (0, 0)]), *tree_lines([(1, 1), (0, 0)])):  # 18 + 1 and 6 + 1
        yield from (hexed((kind, 1)) + line[2:] for kind in range(12))


def near_exponents(numbers):
    """Bytes that are not those of a record's first part, but near them or easily taken for them."""
    right = a, b = largest_of(numbers)
    chain = [TABLE[i] for i in numbers if i < len(TABLE)]
    pairs = [(a + i, b + j) for i in (-1, 0, 1) for j in (-1, 0, 1)]
    pairs += [(b, a), (0, 0), (a, 0), (0, b), (a, a), (b, b), (a, 255), (255, b), (255, 255), (63, 40), (64, 64)]
    pairs += [(a ^ 2**i, b) for i in range(8)] + [(a, b ^ 2**i) for i in range(8)]
    # 64 × b + a is the same in these
    pairs += [(a + 64 * i, b - i) for i in (-3, -2, -1, 1, 2, 3)]
    # the second part and the smallest; the part's neighbours in the table, its number, and k in front of a
    pairs += chain[1:2] + chain[-1:]
    pairs += [TABLE[i + j] for i in numbers[:1] for j in (-1, 1) if 0 <= i + j < len(TABLE)]
    pairs += [divmod(i, 256) for i in numbers[:1]] + [(len(numbers), a)]
    # the largest power of two that is at most n
    pairs.append((max(sum_of(chain).bit_length() - 1, 0), 0))
    return [pair for pair in dict.fromkeys((x % 256, y % 256) for x, y in pairs) if pair != right]


ALONE = [(0, 0), (1, 0), (0, 1), (1, 1), (5, 5), (63, 0), (62, 1), (0, 40), (1, 39), (32, 20), TABLE[1343]]  # taken as chains of one part
WRONG = [(0, 0), (1, 0), (0, 1), (1, 2), (2, 1), (63, 0), (0, 40), (64, 0), (64, 64), (255, 255)]  # wrong for most records
# refused as 8, as 9 and as 10
REFUSED = [[1344], [1344, 0], [65535], [0, 1344], [0] * 65, [1344] * 65, [*TWOS, 0], [0, 0], [0, 1], [1, 2], [1343, 1343], [9, 0, 0]]
REFUSED += [OVER, [NUMBER[62, 1], NUMBER[62, 0]], [NUMBER[62, 1], *TWOS[1:]]]


def exponent_file():
    """Lines of kinds 04, 07 and 09 with right and wrong bytes after k."""
    yield from exponents_near()
    yield from exponents_and_refusals()
    yield from exponent_lengths()
    yield from every_part()


def exponents_near():
    """Wrong bytes near the right ones, in all three kinds: no part, one part, and up to 64."""
    chance = random.Random(16)
    records = [[], *([NUMBER[p]] for p in ALONE), [9, 0], [NUMBER[63, 0], 0], [NUMBER[3, 2], NUMBER[1, 1]], TWOS, TWOS[1:], THREES]
    records += [numbers_of(some_chain(n, chance)) for n in (65535, 10**6, 10**18, 2**64 - 2, 2**64 - 1, 3 * 2**62 - 1)]
    for numbers in records:
        for largest in (None, *near_exponents(numbers)):
            yield from record_lines(numbers, largest)


def exponents_and_refusals():
    """Records that are refused as 8, 9 or 10, and moduli as 13 and 14, whatever the bytes are; the empty record, in kind 09 refused as 15."""
    for numbers, largest in itertools.product(REFUSED, [largest_of(numbers) for numbers in ([1343], OVER)] + WRONG):
        yield from record_lines(numbers, largest)
    for m, x in ((0, 0), (0, 1), (2**63 + 1, 0), (2**64 - 1, 2**64 - 1), (1, 1), (2**63, 2**63), (5, 7)):
        for numbers, largest in itertools.product(([], [0], [9, 0], TWOS, [1344], [0, 1], OVER), WRONG):
            yield run_line(m, x, numbers, largest=largest)
    for largest in [*WRONG, *((x, 0) for x in range(2, 12)), *((0, x) for x in range(2, 12)), (0, 255), (255, 0)]:
        yield from record_lines([], largest)


def exponent_lengths():
    """Lines at their greatest lengths, lines as they were before T-06, and lines with bytes, digits and numbers more or less."""
    for numbers in ([], [0], [9, 0], TWOS, *([0] * k for k in (65, 117, 118, 119, 120, 125, 126, 127))):
        for line in record_lines(numbers):
            at = K_AT[line[:2]] + 2
            a, b = line[at : at + 2], line[at + 2 : at + 4]
            head, rest = line[:at], line[at + 4 :]
            # as it is and as it was; one byte, a byte twice, and both bytes twice
            yield from (line, head + rest, head + a + rest, head + b + rest, head + a + a + b + rest, head + a + b + a + b + rest)
            # behind the numbers, and in front of k
            yield from (head + rest + a + b, head[:-2] + a + b + head[-2:] + rest)
            yield from (line[:-2], line[:-1], line + b"0", line + b"00", line + a + b)
            # cut behind k, behind a and behind b
            yield from (head, head + a, head + a + b)
            if len(line) <= 514:
                yield from (line[:i] + bad + line[i + 1 :] for i in range(at, at + 4) for bad in (b"G", b" ", b"g"))
    # a count that is not that of the numbers: as it was before T-06, with one number less, the first number stands where a and b do now
    for numbers in ([], [0], [0, 0], [258, 9, 0], [9, 0], TWOS, [1344, 0], [65535, 0]):
        for k in (len(numbers) - 1, len(numbers) + 1, len(numbers) + 2):
            for line in record_lines(numbers, k=k % 256):
                yield from (line, without_exponents(line))


def every_part():
    """Each part as a chain by itself: with its bytes, with these exchanged, and in kind 04 with those of its neighbours in the table."""
    for i, (a, b) in enumerate(TABLE):
        yield from record_lines([i])
        if a != b:
            yield from record_lines([i], (b, a))
        yield from (record_of(4, [i], largest=TABLE[j]) for j in (i - 1, i + 1) if 0 <= j < len(TABLE))


KINDS = (1, 1, 1, 2, 3, 3, 3, 4, 4, 4, 5, 5, 6, 6)  # as often as they are drawn
ALL_KINDS = (*KINDS, 7, 7, 7, 8, 8, 8, 9, 9)


def some_lines(seed, times, kinds=ALL_KINDS):
    """Random and damaged lines of these kinds, with numbers of all sizes."""
    chance = random.Random(seed)

    def number():
        return chance.getrandbits(chance.choice((3, 8, 16, 32, 48, 63, 64, 64)))

    def some_word():
        n = number()
        return word_at(n, chance.randrange(count(n)))

    def some_exponents(numbers):
        """Now and then bytes that are not those of the largest part."""
        return chance.choice(near_exponents(numbers)) if chance.randrange(8) == 0 else None

    def some_run(numbers):
        """These numbers, run. Now and then the modulus, x or the numbers are taken from the edges, where they may be refused."""
        m = chance.choice(MODULI) if chance.randrange(5) == 0 else chance.randrange(2 ** chance.choice((8, 32, 62, 63, 63, 63))) + 1
        x = chance.choice(residues_at(m)) if chance.randrange(5) == 0 else chance.randrange(m or 1)
        numbers = chance.choice(RECORDS) if chance.randrange(10) == 0 else numbers
        return run_line(m, x, numbers, largest=some_exponents(numbers))

    def some_tree(chain):
        """The chain's tree word, or now and then one that is nearly it."""
        word = tree_word_of(chain) if chain else ""
        return altered(word, chance) if chance.randrange(4) == 0 else word

    def line():
        kind = chance.choice(kinds)
        n = number()
        if kind == 1:
            return hexed((1, 1), (n, 8))
        if kind == 2:
            limits, (d, t, s2) = some_limits(chance), [some_price(chance) for _ in range(3)]
            return best_line(n, limits, (d, t, s2, s2 if chance.randrange(5) == 0 else some_price(chance)))
        if kind == 3:
            return hexed((3, 1), (n, 8), (chance.randrange(count(n) + 2), 8))
        word = some_word()
        if kind in (5, 6):
            return word_line(kind, word)
        if kind == 8:
            return word_line(8, some_tree(chain_of(word)))
        numbers = numbers_of(chain_of(word))
        return some_run(numbers) if kind == 7 else record_of(kind, numbers, largest=some_exponents(numbers))

    def damaged(text):
        way, at = chance.randrange(7), chance.randrange(len(text))
        if way == 0:
            return text[:at] + bytes([chance.choice(b"0123456789ABCDEF")]) + text[at + 1 :]
        if way == 1:
            return text[:at] + bytes([chance.choice([x for x in range(256) if x != 10])]) + text[at + 1 :]
        if way == 2:
            return text[:at] + text[at + 1 :]
        if way == 3:
            return text[: 2 * (at // 2)] + text[2 * (at // 2) + 2 :]
        if way == 4:
            return text + text[: chance.randrange(len(text))]
        # the byte that counts what follows, in the kinds that have one; or one of the two bytes behind it
        at = K_AT.get(text[:2], 2) + (0 if way == 5 else chance.choice((2, 4)))
        return text[:at] + hexed((chance.getrandbits(8), 1)) + text[at + 2 :]

    for _ in range(times):
        text = line()
        yield damaged(text) if chance.randrange(4) == 0 else text


def recased(text, chance):
    """The same text, with the case of each letter A to F and a to f drawn anew."""
    return bytes(c ^ 32 if c in b"ABCDEFabcdef" and chance.random() < 0.5 else c for c in text)


def cased_file():
    """Lines of every kind, good, damaged and refused, that have letters: each in capitals, in small letters and in mixed case."""
    chance = random.Random(4)
    last = [word_line(6, word_at(n, count(n) - 1)) for n in EDGES]
    runs = [*itertools.islice(run_file(), 0, None, 4), *some_lines(6, 100, [7])]
    priced = itertools.islice(price_file(), 0, None, 4)
    trees = [*tree_records(), *some_lines(9, 100, [8, 9])]
    bytes_after_k = itertools.islice(exponent_file(), 0, None, 13)
    for line in [*some_lines(5, 400, KINDS), *refused_file(), *last, *runs, *priced, *trees, *bytes_after_k]:
        if re.search(rb"[A-F]", line):
            yield from (line.upper(), line.lower(), recased(line, chance))


def stored(name):
    """A file of tests/vectors."""
    with open(os.path.join(HERE, "vectors", name), "rb") as file:
        return file.read()


def with_price_twice(file):
    """Lines of kind 02 with one price for an addition, which is their last field, as lines with two: s2 = s3 = s."""
    return b"".join(line + line[-4:] + b"\n" for line in lines_of(file))


def put_exponents(text, at):
    """A line or reply from before T-06 that has k at this digit and the part numbers behind it: a and b are put in between."""
    k, first = int(text[at : at + 2], 16), text[at + 2 : at + 6]
    a, b = largest_of([int(first, 16)] if k else [])
    return text[: at + 2] + hexed((a, 1), (b, 1)) + text[at + 2 :]


def with_exponents(name):
    """Lines that were stored before T-06 and the replies that were stored with them, as two files: a and b are put in where T-06 asks for them."""
    file, told = b"", b""
    for line, reply in zip(lines_of(stored(name + "_lines")), lines_of(stored(name + "_replies")), strict=True):
        file += (put_exponents(line, K_AT[line[:2]]) if line[:2] in K_AT else line) + b"\n"
        # a refusal has no chain, nor has a count, a residue or a tree word
        told += (reply if len(reply) == 2 or line[:2] in (b"01", b"07", b"09") else put_exponents(reply, K_AT_REPLY)) + b"\n"
    return file, told


LISTING = b"""010000000000000013
020000000000000013023F280004000700090009
03000000000000001B0000000000000006
020000000000000005013F280004000700090009
0402010200090000
7F
"""
REPLIES = """000000000000000004
0000000000000000130000000000000003020102000900000000001B
00000000000000001B0000000000000006010003000B
05
000000000000000013000000000000000302010200090000
04
"""

WHATS = {}


def what(f):
    WHATS[f.__name__.replace("_", "-")] = f
    return f


@what
def intake_stdin():
    """Document 01's listing, with the changes that T-04 and T-06 make to it."""
    return LISTING


@what
def intake():
    """The replies to it."""
    return answer(LISTING)


@what
def test_plain():
    """Counts of 0 to 2,000; 65,536 and 2^64 - 1 are refused as 12; the count of 65,535, by listing its chains alone."""
    yield from (str(len(chains)) for chains in chains_up_to(2000))
    yield "12"
    yield "12"
    yield str(len(chains_of(65535)))


@what
def test_chains_stdin():
    """The records of all chains of 0 to 300, those of a number in the order of its list."""
    for entries in listing(300):
        for _, chain in entries:
            yield " ".join(str(NUMBER[p]) for p in chain)


@what
def test_chains():
    """Their sums and words, and how the word before stands to each."""
    before = ""
    for n, entries in enumerate(listing(300)):
        for word, _ in entries:
            yield f"{n} {word} " + ("<" if before < word else "=" if before == word else ">")
            before = word


# ---- the services on words, with the places that they are lent, which hold 170 at entry


def spaced(values):
    return "".join(f" {v}" for v in values)


def text_of(letters):
    """A word as text; a letter that is no digit stands for a byte above 9."""
    return "".join(str(l) if l < 10 else "x" for l in letters)


def lent_places(given, size):
    """What is given, zeros up to 64, the rest as it was; untouched where nothing is given."""
    return spaced([170] * size if given is None else (given + [0] * 64)[:64] + [170] * (size - 64))


def told_of_word(letters, size):
    word = text_of(letters)
    chain = chain_of(word)
    refusal = 1 if size < 64 else 7 if not good(word) else 10 if sum_of(chain) >= LIMIT else None
    if refusal:
        return f" refused {refusal} :" + lent_places(None, size)
    return f" {sum_of(chain)} {len(chain)} :" + lent_places([NUMBER[p] for p in chain], size)


def told_of_record(numbers, size):
    """The sum, and what writing the word answers and leaves."""
    refusal = refusal_of_record(numbers)
    first = 1 if size < 64 else refusal
    if first:
        return f" refused {first} :" + lent_places(None, size)
    word = word_of([TABLE[i] for i in numbers])
    return f" {len(word)} :" + lent_places([int(l) for l in word], size)


def judged(numbers):
    refusal = refusal_of_record(numbers)
    return f" refused {refusal}" if refusal else f" {sum(VALUE[TABLE[i]] for i in numbers)}"


def number_or_past(a, b):
    return NUMBER.get((a, b), len(TABLE))


@what
def test_words():
    words = [w for k in range(6) for w in itertools.product(range(5), repeat=k)]
    for letters in words:
        word = text_of(letters)
        if good(word):
            chain = chain_of(word)
            assert word_of(chain) == word
            yield f"{spaced(letters)} : {sum_of(chain)} {len(chain)} :{spaced(NUMBER[p] for p in chain)} :{spaced(word)}"
    runs = "0,63 0,64 1,63 1,64 2,40 2,41 3,40 3,41 0,254 1,254 2,254 3,254 4,2 255,2"
    edges = [[int(l)] * int(k) + [3] for l, k in (run.split(",") for run in runs.split())]
    letters = [3, 0, 3, 4, 3, 2, 0, 2, 3, 255]
    cuts = "0,0 0,1 0,2 0,3 2,5 4,6 5,9 7,9 8,10"
    edges += [letters[int(i) : int(j)] for i, j in (cut.split(",") for cut in cuts.split())]
    for word in edges:
        total = sum_of(chain_of("".join(l for l in text_of(word) if l in "0123")))
        weight = total if total < LIMIT else "over"
        yield ("good" if good(text_of(word)) else "bad") + f" {weight}" + told_of_word(word, 66) + told_of_word(word, 63)
    powers = [NUMBER[63 - i, 0] for i in range(64)] + [0]
    records = [powers[0:0], powers[63:64], powers[:64], powers]
    pairs = "64,0,0,0 0,0,64,0 1,2,0,0 0,0,1,0 3,1,3,1 1,1,2,0 0,40,0,0 62,1,61,0 62,1,62,0 62,1,61,1 63,0,62,1"
    for a, b, c, d in (map(int, pair.split(",")) for pair in pairs.split()):
        records.append([number_or_past(a, b), number_or_past(c, d)])
    for numbers in records:
        yield judged(numbers) + told_of_record(numbers, 66) + told_of_record(numbers, 63)


def compared(u, v):
    """How one word stands to another, as text; 7 if either is not good."""
    u, v = text_of(u), text_of(v)
    return "7" if not (good(u) and good(v)) else "<" if u < v else "=" if u == v else ">"


@what
def test_compare():
    """All pairs of short words; long words that differ in one place, and beginnings of them; zeros with one 1; zeros of all lengths."""
    letters = [0, 1, 2, 3, 4, 255, 19, 131]
    short = [w for k in range(4) for w in itertools.product(letters[:6], repeat=k)]
    for u in short:
        yield "".join(compared(u, v) for v in short)
    for count in (*range(1, 27), *range(63, 67), *range(127, 131)):
        for filler in range(4):
            old = [filler] * (count - 1) + [3]
            changes = ((place, old[:place] + [letter] + old[place + 1 :]) for place in range(count) for letter in letters)
            pairs = ((u, new) for place, new in changes for u in (old, old[:place]))
            yield "".join(compared(u, v) + compared(v, u) for u, v in pairs)
    for count in (*range(1, 27), *range(63, 67)):
        ones = [[0] * place + [1] + [0] * (count - place - 2) + [3] for place in range(count - 1)] + [[0] * (count - 1) + [3]]
        yield "".join(compared(u, v) for u in ones for v in ones)
    zeros = [[0] * k + [3] for k in range(26)]
    for u in zeros:
        yield "".join(compared(u, v) for v in zeros)


# ---- the services that find a chain or its position


def digest(numbers):
    value = 0
    for x in numbers:
        value = (value * 1361 + x + 1) % 1000000007
    return value


def digest_64(numbers):
    return digest(numbers + [0] * (64 - len(numbers)))


def parts_line(chain):
    """How many parts, and a digest of the 64 places."""
    return f"{len(chain)} {digest_64([NUMBER[p] for p in chain])}"


def position_line(n, position):
    """What the chain at a position, its word, reading both, its record and the next chain answer."""
    if position >= count(n):
        return "6"
    word = word_at(n, position)
    chain = chain_of(word)
    assert sum_of(chain) == n and word_of(chain) == word and position_of(word) == position
    after = parts_line(chain_of(word_at(n, position + 1))) if position + 1 < count(n) else "11"
    letters = [int(l) for l in word]
    return f"{n} {position} {parts_line(chain)} {len(word)} {digest_64(letters)} = = = {after} "


def ends_line(letters):
    """Reading a word and asking for the next chain, in full."""
    word = text_of(letters)
    chain = chain_of(word)
    n = sum_of(chain)
    if not good(word):
        return "7 7 "
    if n >= LIMIT:
        return "10 10 "
    position = position_of(word)
    first = f"{n} {position} {parts_line(chain)} "
    if position + 1 == count(n):
        return first + "11 "
    return first + f"{n} {position + 1} {parts_line(chain_of(word_at(n, position + 1)))} "


def record_line(numbers):
    """Reading a record, asked whether it is 0 at position 0, and placing it, asked whether it is at position 0."""
    refusal = refusal_of_record(numbers)
    if refusal:
        return f"{refusal} {refusal} "
    chain = [TABLE[i] for i in numbers]
    n, position = sum_of(chain), position_of(word_of(chain))
    return ("= " if (n, position) == (0, 0) else f"{n} {position} ") + ("= " if position == 0 else f"{position} ")


def shifts(times):
    """Numbers from a generator by shifts."""
    x = 88172645463325252
    for _ in range(times):
        x ^= (x << 13) % LIMIT
        x ^= x >> 7
        x ^= (x << 17) % LIMIT
        yield x


def refused_lines():
    """Words and records, most of them refused: the same whatever the size of the scratch."""
    for letters in ([], [0], [2], [4], [0, 2, 3], [1, 2, 3], [1, 3, 2]):
        yield ends_line(letters)
    for letter, times in ((0, 63), (0, 64), (2, 40), (2, 41), (1, 63), (1, 64)):
        yield ends_line([letter] * times + [3])
    for record in ([], [1343], [1344], [0, 1344], [0, 0], [0, 1], [NUMBER[62, 1], NUMBER[61, 1]], [NUMBER[63, 0], NUMBER[62, 0]]):
        yield record_line(record)
    yield record_line(TWOS)
    yield record_line(TWOS + [0])


@what
def test_ranking():
    """No line tells the size of the scratch: it changes no answer."""
    for n in range(301):
        for position in range(count(n) + 1):
            yield position_line(n, position)
    powers = [2**a for a in range(64)] + [3**b for b in range(41)]
    numbers = [LIMIT - 1, 3 * 2**62 - 1, (2**36 * 3**19 - 27) // 5]
    numbers += [n for power in powers for n in (power - 1, power, power + 1)] + list(shifts(300))
    for n in numbers:
        last = count(n) - 1
        for position in (0, last, last // 2, last + 1):
            yield position_line(n, position)
    for _ in SIZES:
        yield from refused_lines()
    # too small a scratch: three services, then the record, read and placed; too few places with two sizes of the scratch: three services
    yield "1 1 1 "
    yield "1 1 "
    yield "1 1 1 "
    yield "1 1 1 "


# ---- the best chain

PRICES = [(4, 7, 9, 9), (0, 0, 0, 0), (65535, 65535, 65535, 65535), (1, 65535, 65535, 0), (65535, 1, 0, 65535), (4, 7, 9, 6)]
LIMITS = [FREE, (64, 63, 40), (3, 63, 40), (2, 5, 2), (4, 3, 40), (3, 63, 1), (1, 255, 255), (0, 0, 0), (5, 0, 40), (6, 63, 0)]
EDGE_LIMITS = [FREE, (63, 63, 40), (62, 63, 40), (64, 63, 0), (63, 63, 0), (64, 0, 40), (255, 62, 40), (255, 63, 39)]
EDGES = [3 * 2**62 - 1, 3 * 2**62, 2**64 - 1, 2**64 - 2, 2**63, 2**62 - 1, 3**40, 3**40 - 1, 3**40 + 1, 2**63 - 1]
EDGES += [(2**36 * 3**19 - 27) // 5]


def listed_within(entries, limits, prices):
    """Of the list of a number: (parts, price, position, chain) of each chain within the limits, by looking at every chain."""
    most, most_a, most_b = limits
    for i, (_, c) in enumerate(entries):
        a, b = exponents(c)
        if not c or (len(c) <= most and a <= most_a and b <= most_b):
            yield len(c), price_of(c, *prices), i, c


def listed_best(entries, limits, prices):
    return min(listed_within(entries, limits, prices), default=None)


def listed_cheapest(entries, limits, prices):
    """The price first, then the parts, then the position."""
    return min(listed_within(entries, limits, prices), key=lambda found: (found[1], found[0], found[2]), default=None)


def listed_up_to(entries, most):
    return len([c for _, c in entries if len(c) <= most])


def best_twice(n, limits, prices):
    """(position, parts, price, chain) of the best chain, or None: by the engine and by growth from the smallest part, which agree."""
    found = best(n, *limits, *prices)
    placed = found and (position_of(found[2]), found[0], found[1], chain_of(found[2]))
    again = grown.best(n, limits, prices)
    assert placed == (again and (*again[:3], list(again[3])))
    return placed


def told(found):
    position, k, price, points = found
    return " ".join(map(str, [position, k, price] + [NUMBER[p] for p in points]))


def around_line(n, i, free, prices):
    """Limits one below, at and one above what the best needs: on parts all three, on doublings and triplings one in turn."""
    position, k, _, points = free
    a, b = exponents(points)
    text = ""
    for at, limit in (0, k - 1), (0, k), (0, k + 1), (1, a - 1 + i % 3), (2, b - 1 + i // 3 % 3):
        limits = tuple(max(limit, 0) if j == at else 255 for j in range(3))
        found = best_twice(n, limits, prices)
        text += ("5" if found is None else "=" if found[0] == position else "%d %d %d" % found[:3]) + " "
    return text


def left_lines(n, limits, size, places):
    """The answer, then how far zeros and then what was there before reach: in the scratch, and in the places behind the parts. Then the
    same of choosing, which tells no position, and of placing, which tells nothing else and is lent no places."""
    found = best_twice(n, limits, PRICES[0])
    if size < SCRATCH or places < 64:
        refused = f"1 0 {size} 0 {places}"
    elif found is None:
        refused = f"5 {SCRATCH} {size} 0 {places}"
    else:
        position, chosen = told(found).split(" ", 1)
        left = f"{SCRATCH} {size} 64 {places}"
        return [f"{position} {chosen} {left}", f"{chosen} {left} {position} {SCRATCH} {size}"]
    return [refused, refused]


EXAMPLES = [(19, (2, 63, 40)), (5, (1, 63, 40)), (29, FREE), (0, (0, 0, 0))]


@what
def test_best():
    for n, entries in enumerate(listing(400)):
        for i in range(12):
            limits, prices = LIMITS[i % 10], PRICES[(n + i) % 6]
            found = listed_best(entries, limits, prices)
            line = "5" if found is None else told((found[2], found[0], found[1], found[3]))
            again = best_twice(n, limits, prices)
            assert line == ("5" if again is None else told(again))
            yield line + " ="
        grown.forget()
    for i, n in enumerate(shifts(1000)):
        free = best_twice(n, FREE, PRICES[i % 6])
        yield told(free) + " ="
        yield around_line(n, i, free, PRICES[i % 6])
        grown.forget()
    for size in SIZES:
        for n, limits in [*itertools.product(EDGES, EDGE_LIMITS), *EXAMPLES]:
            yield from left_lines(n, limits, size, 66)
    for size, places in (SHORT, 66), (SCRATCH, 63), (5248, 63):
        for n, limits in EXAMPLES:
            yield from left_lines(n, limits, size, places)


# ---- the cheapest chain within a limit on parts, and how many chains there are: T-10

LENT = 174720  # numbers that both services must be lent, and that are zero on return
ANY = (255, 255)  # limits on doublings and triplings that exclude nothing
WAYS = [(*ANY, (4, 7, 9, 9)), (*ANY, (0, 0, 0, 0)), (63, 0, (65535, 65535, 65535, 65535)), (*ANY, (1, 0, 5, 2)), (3, 40, (9, 1, 1, 4))]
WAYS += [(63, 1, (1, 65535, 65535, 0)), (5, 2, (65535, 1, 0, 65535)), (0, 40, (0, 0, 9, 9)), (*ANY, (4, 7, 9, 6)), (0, 0, (0, 0, 0, 0))]
WAYS += [(63, 40, (1, 0, 0, 0)), (*ANY, (0, 1, 0, 0)), (*ANY, (0, 0, 65535, 0)), (*ANY, (0, 0, 0, 65535))]
PARTS_DECIDE = (1, 7, 9)  # in these ways the cheapest chain is the best
LIMITED = [0, 1, 2**64 - 1, 2**64 - 2, 3 * 2**62 - 1, 3 * 2**62, 2**63, 2**63 - 1, 3**40, 3**40 - 1, 3**40 + 1, (2**36 * 3**19 - 27) // 5]
LIMITED += [(3**41 - 1) // 2, 10**18, (2**64 - 1) // 3, 19]
LIMITED_PARTS = [*range(67), 127, 128, 254, 255]
LEFT_LIMITS = [FREE, (0, 0, 0), (62, 63, 40), (64, 0, 40)]


def parts_and_numbers(found):
    """The number of parts, the price and the part numbers, or the refusal."""
    return "5" if found is None else " ".join(map(str, [*found[:2], *numbers_of(chain_of(found[2]))]))


def parts_and_digest(found):
    """The same with a digest of these and the 64 places, for the part numbers."""
    if found is None:
        return "5"
    k, price, word = found
    places = (numbers_of(chain_of(word)) + [0] * 64)[:64]
    return f"{k} {price} {functools.reduce(mixed, [*places, k, price], 0)}"


def rising_line(n, way, parts):
    """The cheapest chain under each limit on parts, where it is another one; = where the best chain is the same."""
    most_a, most_b, prices = WAYS[way]
    text, last = f"{n} {way}", "nothing"
    for most in parts:
        limits = most, most_a, most_b
        found = cheapest(n, limits, prices)
        same = found == best(n, *limits, *prices)
        assert same or way not in PARTS_DECIDE
        if found != last:
            text += f" {most}: {parts_and_numbers(found)}" + (" =" if same else "")
        last = found
    return text


def counts_line(n, parts):
    """The count under each limit on parts, where it is another one. From 64 on it is the count of all chains, which comes last."""
    text, last = str(n), None
    for most in parts:
        counted = count_up_to(n, most)
        assert most < 64 or counted == count(n)
        if counted != last:
            text += f" {most}: {counted}"
        last = counted
    return f"{text} {count(n)}"


def small_limited():
    for n, entries in enumerate(listing(200)):
        parts = [*range(8), 64 + n % 192]
        for way in ((n + i) % len(WAYS) for i in range(7)):
            for most in parts:
                least = listed_cheapest(entries, (most, *WAYS[way][:2]), WAYS[way][2])
                assert cheapest(n, (most, *WAYS[way][:2]), WAYS[way][2]) == (least and (*least[:2], word_of(least[3])))
            yield rising_line(n, way, parts)
        assert all(count_up_to(n, most) == listed_up_to(entries, most) for most in parts)
        yield counts_line(n, parts)


def edges_limited():
    """The cheapest chains and the counts are found by growth from the smallest part too."""
    for i, n in enumerate(LIMITED):
        for way in ((i + 3 * j) % len(WAYS) for j in range(4)):
            assert cheapest_of_each(n, *WAYS[way]) == grown.cheapest_of_each(n, *WAYS[way])
            yield rising_line(n, way, LIMITED_PARTS)
        assert {k: share for k, share in enumerate(shares(n)) if share} == grown.shares(n)
        yield counts_line(n, LIMITED_PARTS)
        grown.forget()


def falling_line(n, i):
    """From the cheapest chain of all down, each with fewer parts than the one before. Then limits near what that of all needs, and counts."""
    prices = WAYS[i % len(WAYS)][2]
    if i % 10 == 0:
        assert cheapest_of_each(n, *ANY, prices) == grown.cheapest_of_each(n, *ANY, prices)
        grown.forget()
    free = found = cheapest(n, FREE, prices)
    text = str(n)
    while found is not None:
        text += " " + parts_and_digest(found)
        found = cheapest(n, (found[0] - 1, *ANY), prices)
    a, b = exponents(chain_of(free[2]))
    near = [FREE, (255, max(a - 1 + i % 3, 0), 255), (255, 255, max(b - 1 + i // 3 % 3, 0))]
    text += " 5" + "".join(" " + parts_and_digest(cheapest(n, limits, prices)) for limits in near)
    return f"{text} {count_up_to(n, i % 40)} {count_up_to(n, 64 + i % 192)}"


def lent_line(n, limits, size, places):
    """The cheapest chain, and how far zeros and then what was there before reach: in the scratch, and in the places behind the parts. Then the
    same of the count, which is lent no places."""
    found = cheapest(n, limits, WAYS[0][2])
    if size < LENT or places < 64:
        left = f"1 0 {size} 0 {places}"
    else:
        left = f"{parts_and_numbers(found)} {LENT} {size} {0 if found is None else 64} {places}"
    return left + (f" 1 0 {size}" if size < LENT else f" {count_up_to(n, limits[0])} {LENT} {size}")


@what
def test_limited():
    yield from small_limited()
    yield from edges_limited()
    yield from (falling_line(x >> i % 40, i) for i, x in enumerate(shifts(300)))
    for size, places in itertools.product((LENT - 1, LENT, LENT + 10), (63, 64, 70)):
        for n, limits in itertools.product(LIMITED, LEFT_LIMITS):
            yield lent_line(n, limits, size, places)


SPECIAL = [65535, 65536, 10**6, 2**32 - 1, 2**32, 10**18, 3**19 - 1, 3**19, 3**19 + 1, 2**30 * 3**19, 2**62 - 1, 2**62]
SPECIAL += [2**63 - 1, 2**63, 2**63 + 1, 3**40 - 1, 3**40, 3**40 + 1, 3 * 2**62 - 1, 3 * 2**62, (2**36 * 3**19 - 27) // 5]
SPECIAL += [3**34 * 1000, 2**64 - 2, 2**64 - 1]


@what
def test_table():
    """A count a line, then where the zeros that the scratch begins with end, and where the ones after them end."""
    quotients = [(LIMIT - 1) // d for d in range(1, 501)]
    for n in range(2001):
        yield f"{count(n)} {SCRATCH} {SCRATCH}"
    for size in SIZES:
        for n in quotients + SPECIAL:
            yield f"{count(n)} {SCRATCH} {size}"
    for n in SPECIAL:
        yield f"1 0 {SHORT}"


# ---- numbers with one chain and with two: T-11

SEARCHED = 48 * 65536  # all chains of the numbers below this one are built


def family(c):
    """The numbers c * 2^a - 1 below 2^64, with a from 0."""
    return list(itertools.takewhile(lambda n: n < LIMIT, (c * 2**a - 1 for a in itertools.count())))


def parts_of_chains(n):
    """How many parts the chains of n have, fewest first."""
    return [k for k, chains in enumerate(shares(n)) for _ in range(chains)]


def check_few(found):
    """Checks 003's proposition 5 on the numbers found by search, and on all numbers that it names below 2^64.

    A number named for one chain has as many parts in it as one bits. So has one of the two chains of 9 * 2^a - 1, and the other has a part more.
    Of the two chains of 15 * 2^a - 1 the other has a part less.
    """
    named = {1: {0, 1, *family(3)}, 2: {3, 4, 6, 7, *family(9), *family(15)}}
    assert [len(named[w]) for w in named] == [65, 126]
    for w, numbers in named.items():
        assert {n for n, chains in found if chains == w} == {n for n in numbers if n < SEARCHED}
        assert {count(n) for n in numbers} == {w}
    ones = {n: n.bit_count() for n in (*named[1], *named[2])}
    assert all(parts_of_chains(n) == [ones[n]] for n in named[1])
    assert all(parts_of_chains(n) == [ones[n], ones[n] + 1] for n in family(9))
    assert all(parts_of_chains(n) == [ones[n] - 1, ones[n]] for n in family(15))


@what
def test_few():
    """Numbers with fewer than three chains, and digests of all counts, by search; then the counts of three families and of their neighbours."""
    told = [field.replace("<", "< ").replace("=", " ") for field in ask("searched", SEARCHED)]
    check_few([tuple(map(int, line.split())) for line in told if line[0] != "<"])
    yield from told
    for n in itertools.chain(*map(family, (3, 9, 15))):
        yield f"{n} {count(n)} {count(n - 1)} {count(n + 1)}"


# ---- the bench: T-08. A chain, and any state, is the set of its points


def raised(chain, kind, b):
    """The upward move at row b by 003's words, section 2.3, with document 02's condition; or None."""
    row = [x for x, y in chain if y == b]
    if not row:
        return None
    a = max(row)
    if (a - 1, b) in chain:
        return chain - {(a, b), (a - 1, b)} | {(a - 1, b + 1)} if kind == 1 else None
    contiguous = set(itertools.takewhile(chain.__contains__, ((a - i, b) for i in itertools.count(2))))
    c = a - 2 if not contiguous else min(contiguous)[0] - 1
    if kind != 2 or c < 0 or any(y < b and x > c for x, y in chain):
        return None
    return chain - {(a, b)} - contiguous | {(x, b + 1) for x, _ in contiguous} | {(c, b), (c, b + 1)}


def is_chain(points):
    """Whether each is a proper multiple of the next smaller one."""
    values = sorted(2**a * 3**b for a, b in points)
    return all(x < y and y % x == 0 for x, y in zip(values, values[1:]))


def before(chain, kind, b):
    """What the move of a kind at row b may have been made from: sets of points, by what such a move adds."""
    for x in (x for x, y in chain if y == b + 1):
        if kind == 1:
            yield chain - {(x, b + 1)}, {(x + 1, b), (x, b)}
        elif kind == 2 and (x, b) in chain:
            run = list(itertools.takewhile(chain.__contains__, ((i, b + 1) for i in itertools.count(x + 1))))
            for k in range(len(run) + 1):
                yield chain - {(x, b), (x, b + 1)} - set(run[:k]), {(i, b) for i, _ in run[:k]} | {(x + k + 2, b)}


def lowered(chain, kind, b):
    """The downward move: the one chain that the upward move of this kind at row b leads here from; or None."""
    kept = (rest | more for rest, more in before(chain, kind, b) if not rest & more)
    found = [d for d in kept if is_chain(d) and raised(d, kind, b) == chain]
    assert len(found) <= 1
    return found[0] if found else None


@functools.lru_cache(200000)
def moved(chain, kind, up, row):
    return raised(chain, kind, row) if up else lowered(chain, kind, row)


def step_of_walk(chain):
    """A step of theorem 1, at the smallest part of the highest row: 3 = 1 + 2, or 1 + 3 = 4 with what it is generalized to."""
    b = max(y for _, y in chain)
    a = min(x for x, y in chain if y == b)
    if (a, b - 1) not in chain:
        return chain - {(a, b)} | {(a, b - 1), (a + 1, b - 1)}
    run = set(itertools.takewhile(chain.__contains__, ((x, b) for x in itertools.count(a))))
    below = {(x, b - 1) for x, _ in run}
    return chain - run - {(a, b - 1)} | below - {(a, b - 1)} | {(max(run)[0] + 2, b - 1)}


@functools.cache
def walk_of(chain):
    """The number of moves to the binary chain, and this chain."""
    moves = 0
    while any(y for _, y in chain):
        chain = step_of_walk(chain)
        moves += 1
    return moves, chain


class Bench:
    """A present state, and states under names 0 to 7. All 64-bit numbers that the caller may put in the rows are sets of points too."""

    def __init__(self):
        ones = frozenset(itertools.product(range(64), range(41)))
        self.n, self.present, self.states, self.saved = LIMIT - 1, ones, (ones,) * 8, (True,) * 8

    def open(self, numbers):
        refusal = refusal_of_record(numbers)
        if refusal:
            return refusal
        self.present = frozenset(TABLE[i] for i in numbers)
        self.n, self.states, self.saved = sum_of(self.present), (frozenset(),) * 8, (False,) * 8
        return 0

    def is_sound(self):
        return is_chain_of(self.present, self.n) and all(is_chain_of(self.states[i], self.n) for i in range(8) if self.saved[i])

    def move(self, kind, up, row):
        after = moved(self.present, kind, up, row) if self.is_sound() else None
        if after is None:
            return 17
        self.present = after
        return 0

    def save(self, name):
        if not self.is_sound():
            return 17
        if name > 7:
            return 18
        self.states, self.saved = replaced(self.states, name, self.present), replaced(self.saved, name, True)
        return 0

    def come_back(self, name):
        if not self.is_sound():
            return 17
        if name > 7 or not self.saved[name]:
            return 18
        self.present = self.states[name]
        return 0

    def walk(self):
        """The number of moves and of parts, or None."""
        if not self.is_sound():
            return None
        moves, self.present = walk_of(self.present)
        return moves, len(self.present)

    def tell(self):
        """n and the part numbers, or None."""
        return (self.n, [NUMBER[p] for p in largest_first(self.present)]) if self.is_sound() else None

    def put(self, at, x):
        """A number of the lent memory replaced, as the bench's crate numbers them: the states' rows, n, the names."""
        state, row = divmod(at, 41)
        if state == 0:
            self.present = with_row(self.present, row, x)
        elif state < 9:
            self.states = replaced(self.states, state - 1, with_row(self.states[state - 1], row, x))
        elif at == 369:
            self.n = x
        elif at < 378:
            self.saved = replaced(self.saved, at - 370, x != 0)

    def digest(self):
        return bench_digest(self.present, self.states, self.n, self.saved)


def replaced(values, i, x):
    return (*values[:i], x, *values[i + 1 :])


def with_row(state, row, x):
    """The state with the points (a, row) for each a whose bit of x is 1, and no others in this row."""
    return frozenset(p for p in state if p[1] != row) | {(a, row) for a in range(64) if x >> a & 1}


@functools.lru_cache(1000)
def bench_digest(present, states, n, saved):
    digests = functools.reduce(mixed, map(state_digest, (present, *states)), 0)
    return mixed(mixed(digests, n), functools.reduce(mixed, saved, 0))


@functools.lru_cache(200000)
def is_chain_of(state, n):
    return is_chain(state) and sum_of(state) == n


def largest_first(points):
    return sorted(points, key=lambda p: -(2 ** p[0] * 3 ** p[1]))


def shifted(x):
    x ^= (x << 13) % LIMIT
    x ^= x >> 7
    return x ^ (x << 17) % LIMIT


def mixed(digest, x):
    return shifted((digest + x + 1) % LIMIT)


@functools.lru_cache(200000)
def state_digest(state):
    """The rows that have a part, each with its b: bit a is 1 where 2^a × 3^b is a part."""
    rows = sorted({b for _, b in state})
    return functools.reduce(mixed, (x for b in rows for x in (b, sum(2**a for a, y in state if y == b))), 0)


def check_bench():
    """003's figure 4 and document 02's example; each move leads to a chain of n and back, in both directions; each graph is connected.

    Every walk is one of downward moves, and ends with the binary chain after at most as many moves as there are points with b at least 1. The
    walk from 3^40 has 453 moves. The longest known has 516.
    """
    for n, chains in enumerate(chains_up_to(300)):
        check_graph(n, [frozenset(chain) for chain in chains])
    check_graph(27, [frozenset(chain_of(word)) for word in "11013 13003 1333 21003 2133 2213 2223".split()])
    apart = frozenset([(2, 1), (2, 0)])
    assert is_chain(apart) and not is_chain({(0, 2), (2, 0), (0, 1)}) and raised(apart, 1, 1) is None and raised(apart, 2, 1) is None
    assert raised(apart - {(2, 0)}, 2, 1) == {(0, 2), (0, 1)} and raised(apart, 2, 0) == {(2, 1), (0, 1), (0, 0)}
    assert walk_of(frozenset([(0, 40)]))[0] == 453 and walk_of(frozenset((0, b) for b in LONGEST_WALK))[0] == 516
    assert sum_of((0, b) for b in LONGEST_WALK) == 12358485572361037497 and len([p for p in POINTS if p[1] > 0]) == 1280


def check_graph(n, chains):
    reached, waiting = {chains[0]}, [chains[0]]
    neighbours = {c: [moved(c, kind, up, b) for kind, up, b in ALL_MOVES if moved(c, kind, up, b) is not None] for c in chains}
    for c, (kind, up, b) in itertools.product(chains, ALL_MOVES):
        d = moved(c, kind, up, b)
        assert d is None or is_chain_of(d, n) and d != c and moved(d, kind, not up, b) == c
    while waiting:
        new = [d for d in neighbours[waiting.pop()] if d not in reached]
        reached |= set(new)
        waiting += new
    assert reached == set(chains)
    points = len([p for p in POINTS if p[1] > 0 and VALUE[p] <= n])
    for c in chains:
        check_walk(c, n, points)


def check_walk(chain, n, most):
    moves, end = walk_of(chain)
    assert moves <= most and end == {(a, 0) for a in range(64) if n >> a & 1}
    for _ in range(moves):
        b = max(y for _, y in chain) - 1
        (after,) = [d for d in (lowered(chain, 1, b), lowered(chain, 2, b)) if d is not None]
        assert after == step_of_walk(chain)
        chain = after


ALL_MOVES = list(itertools.product((1, 2), (True, False), range(8)))
LONGEST_WALK = [40, 36, 35, 31, 29, 27, 20, 16, 14, 13, 12, 11, 10]
LOUD = (3**40, 12358485572361037497)


class Tally:
    """What was asked of a bench, and what came of it. Lines are gathered, for a number to 27 and for a loud walk."""

    def __init__(self, bench):
        self.bench, self.n, self.lines = bench, bench.n, []
        self.chains = self.done = self.refused = self.walked = self.digest = 0

    def mix(self, *values):
        for x in values:
            self.digest = mixed(self.digest, x)

    def noted(self, reply):
        self.mix(reply, self.bench.digest())
        if reply:
            self.refused += 1
        else:
            self.done += 1
        return reply == 0

    def told(self):
        n, numbers = self.bench.tell()
        self.mix(n, len(numbers), functools.reduce(mixed, numbers + [0] * (64 - len(numbers)), 0))

    def print_told(self, before=""):
        if self.n <= 27:
            self.lines.append(before + told_chain(self.bench))

    def walk(self):
        moves, k = self.bench.walk()
        self.mix(moves, k)
        self.walked += moves
        self.noted(0)

    def there_and_back(self, kind, up, row):
        if self.noted(self.bench.move(kind, up, row)):
            self.print_told(f" {kind}{'+' if up else '-'}{row} ")
            self.told()
            self.noted(self.bench.move(kind, not up, row))

    def every_move(self, end):
        self.print_told()
        self.told()
        for row, kind, up in itertools.product([*range(end), 39, 40, 41, 128, 255], range(4), (True, False)):
            self.there_and_back(kind, up, row)

    def walk_by_moves(self):
        while True:
            row = max((b for _, b in self.bench.present), default=0) - 1
            if row < 0:
                return
            kind = next(kind for kind in (1, 2) if self.noted(self.bench.move(kind, False, row)))
            if self.n in LOUD:
                self.lines.append(f"{kind}-{row} {state_digest(self.bench.present)}")

    def both_walks(self):
        name = self.n % 8
        self.noted(self.bench.save(name))
        self.walk()
        self.told()
        self.noted(self.bench.come_back(name))
        self.walk_by_moves()
        self.noted(self.bench.come_back(name))

    def line(self):
        return f"{self.n} {self.chains} {self.done} {self.refused} {self.walked} {self.digest}"


def told_chain(bench):
    told = bench.tell()
    return "17" if told is None else f"{told[0]} ({spaced(told[1])} )"


def stroll_step(tally, x):
    """Moves mostly; saves, returns, walks and telling now and then."""
    bench, choice, y = tally.bench, x % 32, x >> 8
    if choice == 0:
        tally.noted(bench.save(y % 9))
    elif choice == 1:
        tally.noted(bench.come_back(y % 9))
    elif choice == 2:
        tally.walk() if y % 8 == 0 else tally.told()
    else:
        kind, up = {0: 0, 1: 3, 2: 255}.get(y % 16, 1 + y % 2), (x >> 16) % 2 == 1
        any_row, choice = (x >> 24) % 41, (x >> 24) // 41
        rows = sorted({b for _, b in bench.present})
        near = next((b for b in rows if b >= any_row), rows[0])
        row = any_row if choice % 8 == 0 else near if up else near - 1
        tally.noted(bench.move(kind, up, row if row >= 0 else 255))


def stroll_lines(bench):
    tally = Tally(bench)
    tally.chains = 1
    for _ in range(8):
        x = mixed(tally.digest, tally.n)
        for _ in range(500):
            x = shifted(x)
            stroll_step(tally, x)
        yield " " + tally.line()


@functools.cache
def bench_records():
    """Those of all chains of 0 to 300; of some 64-bit numbers; refused ones."""
    chance = random.Random(8)
    small = [numbers_of(chain) for entries in listing(300) for _, chain in entries]
    numbers = [LIMIT - 1, 3 * 2**62 - 1, (2**36 * 3**19 - 27) // 5, 2**63, 3**40 - 1, 3**40 + 1, *itertools.islice(shifts(50), 10, 22)]
    large = [chain_of(word_at(n, chance.randrange(count(n)))) for n in numbers]
    large += [[(0, 40)], [(0, b) for b in LONGEST_WALK], chain_of(word_at(3**40, 0)), [(62, 1), (61, 0)]]
    bad = [[1344], [0, 1344], [1344, 0], [0, 0], [0, 1], [5, 6], [2, 1], TWOS + [0], [NUMBER[62, 1], NUMBER[61, 1]], [1343, 9999]]
    bad += [[NUMBER[63, 0], NUMBER[62, 0], NUMBER[62, 0]], [NUMBER[62, 1], NUMBER[62, 0]], [NUMBER[1, 1], NUMBER[0, 2]]]
    return [[1344], *small, *bad, *map(numbers_of, large), *bad]


@what
def test_bench_stdin():
    return (" ".join(map(str, numbers)) for numbers in bench_records())


def record_tallies():
    """One bench, opened on each record in turn."""
    bench, tally = Bench(), None
    for numbers in bench_records():
        refusal = bench.open(numbers)
        if tally and (refusal or tally.n != bench.n or bench.n > 300):
            yield from [*tally.lines, tally.line()]
            tally = None
        if refusal:
            yield f"{refusal} {bench.digest()}"
            continue
        tally = tally or Tally(bench)
        tally.chains += 1
        tally.every_move(8 if bench.n <= 300 else 39)
        tally.both_walks()
        if bench.n > 300:
            yield from [*tally.lines, tally.line(), *stroll_lines(bench)]
            tally = None


def asked(bench):
    """Everything that can be asked of a bench, spoiled or not."""
    replies = [bench.move(kind, up, 2) for kind in (1, 2) for up in (True, False)]
    replies += [bench.save(name) for name in (7, 8)] + [bench.come_back(name) for name in (2, 4, 5, 8, 255)]
    walked = bench.walk()
    replies += [17] if walked is None else [0, *walked]
    return "".join(f"{x} " for x in replies) + told_chain(bench)


def bench_of_27(*spoiled):
    """27, saved under 2; then 18 and 9, saved under 4; then numbers replaced."""
    bench = Bench()
    assert [bench.open([NUMBER[0, 3]]), bench.save(2), bench.move(1, False, 2), bench.save(4)] == [0] * 4
    for at, x in spoiled:
        bench.put(at, x)
    return bench


def spoiled_benches():
    """One number replaced: a row, n, a name's. Then rows 0, 1, 2 and 40 of the present state, of a saved one and of one never saved: chains of 27,
    sets of 27 that are none, sets of 28 and of 0, sets of 2^64 + 27 and of 27 modulo 2^64, rows full of ones.
    """
    ones = LIMIT - 1
    numbers = [(20, 1), (20, ones), (143, 1), (266, 1), (369, 28), (369, 26), (369, 0), (369, ones)]
    names = [(372, 0), (372, ones), (374, 256), (375, 1), (375, 2**63), (378, ones)]
    yield from (bench_of_27(spoiled) for spoiled in numbers + names)
    states = [(27, 0, 0, 0), (3, 8, 0, 0), (18, 0, 1, 0), (28, 0, 0, 0), (0, 0, 0, 0), (1, (LIMIT + 26) // 3, 0, 0), (2**62 + 27, 2**62, 0, 0)]
    states += [(0, 0, 0, 27 * pow(3**40, -1, LIMIT) % LIMIT), (0, 0, 3, ones), (ones, ones, 0, 0), (ones,) * 4]
    for state, rows in itertools.product((0, 5, 6), states):
        yield bench_of_27(*((41 * state + b, x) for b, x in zip((0, 1, 2, 40), rows)))


def flipped_line():
    """27, saved under every name; then bit i modulo 64 of number i changed, for each row and n, and at last none."""
    tally = Tally(bench_of_27())
    tally.chains = 1
    for at in [*range(370), 384]:
        bench = tally.bench = Bench()
        assert [bench.open([NUMBER[0, 3]]), *map(bench.save, range(8))] == [0] * 9
        part = 1 if at % 41 == 3 else 0
        bench.put(at, (27 if at == 369 else part) ^ 2 ** (at % 64))
        tally.noted(bench.move(1, False, 2))
    assert (tally.done, tally.refused) == (1, 370)
    return tally.line()


def other_benches():
    """Those of 0, and those of 2^63 with this in another row."""
    ones = LIMIT - 1
    for spoiled in (378, ones), (375, 1), (0, 1), (369, 1), (41, 1):
        bench = Bench()
        bench.open([])
        bench.put(*spoiled)
        yield bench
    for row in (0, 1, 2, 40):
        bench = Bench()
        bench.open([NUMBER[63, 0]])
        bench.put(0, 0)
        bench.put(row, 2**63)
        yield bench


@what
def test_bench():
    yield from record_tallies()
    yield "refusals"
    for bench in spoiled_benches():
        yield f"{asked(bench)} {bench.digest()}"
    yield flipped_line()
    for bench in other_benches():
        yield f"{asked(bench)} {bench.digest()}"
    whole, changed = (378, LIMIT - 1), (0, 1)
    for size, spoiled in (377, whole), (377, changed), (41, whole), (0, whole), (378, whole), (378, changed):
        bench = bench_of_27(spoiled)
        if size < 378:
            yield "1 " * 15 + f"{bench.digest()}"
        else:
            yield f"{asked(bench)} {bench.open([NUMBER[0, 3]])} {bench.open([0, 1])} {bench.digest()}"
    for size, spoiled in (70, whole), (64, whole), (63, whole), (0, whole), (70, changed), (63, changed):
        bench = bench_of_27(spoiled)
        told = bench.tell() if size >= 64 else None
        places = [2**16 - 1] * 64 if told is None else (told[1] + [0] * 64)[:64]
        reply = "1" if size < 64 else "17" if told is None else f"{told[0]} {len(told[1])}"
        yield f"{reply} {functools.reduce(mixed, places, 0)} {bench.digest()}"


def number_or_dash(a, b):
    return NUMBER.get((a, b), "-")


def sum_or_dash(*values):
    return str(sum(values)) if sum(values) < LIMIT else "-"


@what
def test_parts():
    """The part table with exponents, numbers and the numbers' exponents; its edges and past them; sums that just fit and just do not."""
    for i, (a, b) in enumerate(TABLE):
        yield f"{i} {VALUE[a, b]} {a} {b} {number_or_dash(a, b)} {a} {b}"
    yield str(max(VALUE.values()))
    top = LIMIT - 1
    edges = "63,0 64,0 62,1 63,1 32,20 33,20 40,20 0,40 1,40 0,41 2,39 3,39"
    points = [tuple(map(int, e.split(","))) for e in edges.split()] + [(top, 0), (0, top), (top, top)]
    for a, b in points:
        yield f"{a} {b} {number_or_dash(a, b)}"
    yield from ["0 0"] * 3
    powers = [2**a for a in range(64)]
    yield sum_or_dash()
    yield sum_or_dash(*powers)
    yield sum_or_dash(*powers, 1)
    yield sum_or_dash(2**63, 2**62)
    yield sum_or_dash(2**63, 2**63)
    yield sum_or_dash(3 * 2**62, 2**61)
    yield sum_or_dash(3 * 2**62, 2**62)
    yield sum_or_dash(3 * 2**62, 3 * 2**61)


@what
@functools.cache
def lines():
    """Every kind for all numbers to 200; refusals; prices; tree words; bytes after k; both cases; random and damaged lines; empty lines; a last
    line without byte 10.

    Lines of kind 07, and those of kinds 08 and 09, are drawn apart, so that the random lines of the other kinds do not depend on them.
    """
    drawn = [*some_lines(1, 20000, KINDS), *some_lines(7, 800, [7]), *some_lines(8, 800, [8, 9])]
    some = [b"", b"", *drawn, b"", LISTING.split(b"\n")[0]]
    return b"\n".join([*small_file(200), *refused_file(), *run_file(), *price_file(), *tree_file(), *exponent_file(), *cased_file(), *some])


@what
def replies():
    """The replies to those lines."""
    return answer(lines())


def made(name):
    """What is to be written, as bytes."""
    text = WHATS[name]()
    if isinstance(text, bytes):
        return text
    return (text if isinstance(text, str) else "".join(line + "\n" for line in text)).encode()


def main():
    folder = sys.argv[2] if sys.argv[1:2] == ["--into"] and len(sys.argv) > 2 else None
    names = sys.argv[3:] if folder else sys.argv[1:]
    if any(name not in WHATS for name in names) or not (names if folder else len(names) == 1):
        sys.exit(__doc__ + "\nWHAT: " + " ".join(sorted(WHATS)))
    check_003()
    for name in names:
        if folder:
            with open(os.path.join(folder, name), "wb") as file:
                file.write(made(name))
        else:
            sys.stdout.buffer.write(made(name))


if __name__ == "__main__":
    main()
