"""Writes the test vectors: calls with the replies of the reference. Always the same ones.

    make_vectors.py [FOLDER]      (without it: crates/vectors)

The file stdin has one call a line, as decimal numbers separated by commas behind the call's letter:

    E  element               width, multiplier, increment, seed, index           refusal, value
    O  orbit                 width, multiplier, increment, seed                  refusal, preperiod, exponent, period
    I  index                 width, multiplier, increment, seed, number          refusal, found, index
    B  index by low bits     width, multiplier, increment, seed, places, number  refusal, found, index, recurs, exponent
    G  gap                   width, multiplier, increment, seed, from, to        refusal, found, backward, steps
    P  predecessor           width, multiplier, increment, seed, number          refusal, value
    C  customary multiplier  width                                               refusal, value
    V  variety               the six numbers of a run                            refusal, value
    W  write line            the six numbers of a run, buffer's length           refusal, length
    R  read line             count of bytes, the bytes                           refusal, the six numbers
    L  line                  number, count of bytes, the bytes                   start, length
    F  lookup (find)         number, count of bytes, the bytes                   refusal, line, found, position
    S  summary               count of bytes, the bytes                           refusal, line, line_count, total
    M  remake                the six numbers of a run, position, lent            refusal, count, 5 numbers
    K  player (keeps place)  a record, the six numbers of a run, 1 to 8 calls    refusal, value, the record
    D  fix (two deviates)    the six numbers of a run, fix                       refusal, bits of east, bits of north
    J  lane                  the six numbers of a run, lanes, lane               refusal, the six numbers
    T  write lane            as J, buffer's length                               refusal, length
    H  shared (held by two)  the six numbers of a run, those of another          refusal, value

The file stdout has the reply to each, the numbers on the right. No call has more than 250 numbers.
G's backward is 1 if steps lead back, and else 0, so that all fields are plain numbers.
The five numbers of M are a buffer that held 1, 2, 3, 4, 5, and of which the first 0 to 5 were lent.
A record of K is fifteen numbers: the six of a run, the position, and of each of four marks set and position. The calls
are made on that record in turn, each written as two numbers, code and argument: 0 open (0; it opens the run that stands
before the calls), 1 forward (steps), 2 back (steps), 3 set a mark (mark), 4 return (mark), 5 show (0). The reply has
refusal and value of the last call, the value 0 but for show, and the record after it.
The bits of D are the 64 of each float, as one number.
"""

import random
import sys
from itertools import chain, combinations, islice, permutations, product
from pathlib import Path

import reference as ref

SEED = 20260101
TOP = 2**64 - 1
REFUSED_WIDTHS = (65, 66, 128, 2**32, 2**63, TOP)
# Width 0 takes operands of its own, and refuses those of another width.
OTHER_WIDTHS = (0, *REFUSED_WIDTHS)


def gap_reply(*args):
    refusal, found, steps = ref.gap(*args)
    return refusal, found, int(steps < 0), abs(steps)


# The calls on a player by their codes; each takes the record, the run to open and its argument.
OPEN, FORWARD, BACK, MARK, RETURN, SHOW = range(6)
PLAYER_CALLS = (
    lambda record, run, _: ref.player_open(record, run),
    lambda record, _, steps: ref.player_forward(record, steps),
    lambda record, _, steps: ref.player_back(record, steps),
    lambda record, _, mark: ref.player_mark(record, mark),
    lambda record, _, mark: ref.player_return(record, mark),
    lambda record, *_: ref.player_show(record),
)


def player_reply(*numbers):
    record, run, calls = numbers[:15], numbers[15:21], numbers[21:]
    for call, argument in zip(calls[::2], calls[1::2]):
        refusal, value, *record = PLAYER_CALLS[call](record, run, argument)
    return refusal, value, *record


REPLY = {
    "E": ref.element,
    "O": ref.orbit,
    "I": ref.index,
    "B": ref.index_places,
    "G": gap_reply,
    "P": ref.predecessor,
    "C": ref.customary_multiplier,
    "V": ref.variety,
    "W": ref.write_line,
    "R": ref.read_line,
    "L": lambda number, archive: ref.line(archive, number),
    "F": lambda number, archive: ref.lookup(archive, number),
    "S": ref.summary,
    "M": ref.remake,
    "K": player_reply,
    "D": ref.fix_at,
    "J": ref.lane,
    "T": ref.write_lane,
    "H": lambda *numbers: ref.shared(numbers[:6], numbers[6:]),
}


# Random choices. Only getrandbits is used, which gives the same bits in every Python.

source = random.Random(SEED)


def below(limit):
    return source.getrandbits(80) % limit


def pick(choices):
    return choices[below(len(choices))]


def multipliers(width):
    """One multiplier of each kind: odd, even, 0, 1, the largest, beside a power of two."""
    size = 2**width
    beside = 2 ** below(width) + pick((-1, 1))
    return below(size) | 1, below(size) & ~1, 0, 1, size - 1, beside % size


def increments(width):
    """Zero, odd, even."""
    size = 2**width
    return 0, below(size) | 1, below(size) & ~1


def a_seed(width):
    size = 2**width
    return pick((0, 1, size - 1, below(size), (below(size) << below(width)) % size))


def generators():
    """For each width one generator of each kind of multiplier; over the widths each of these
    meets each kind of increment."""
    for width in range(1, 65):
        for kind, multiplier in enumerate(multipliers(width)):
            increment = increments(width)[(kind + width) % 3]
            yield width, multiplier, increment, a_seed(width)


def an_index(width):
    return pick((0, 1, TOP, 2**width - 1, 2**width % 2**64, below(2**64), 2 ** below(64)))


def a_number(generator):
    """On the orbit, near it, anywhere, or too wide."""
    width, seed = generator[0], generator[3]
    shown = ref.element(*generator, an_index(width))[1]
    near = shown ^ 1 << below(width)
    return pick((shown, shown, near, below(2**width), seed, min(2**width + below(2), TOP)))


def a_run(generator):
    first = pick((0, 1, below(2**64), 2 ** below(64), TOP - 1))
    count = 1 + pick((0, below(16), below(TOP - first), TOP - first - 1))
    return *generator, first, min(count, TOP - first)


# The calls, as a letter and its arguments.


def valid_calls():
    for g in generators():
        run = a_run(g)
        length = len(ref.line_of(run))
        yield "O", g
        yield "E", (*g, an_index(g[0]))
        yield "E", (*g, below(2**64))
        yield "I", (*g, a_number(g))
        yield "I", (*g, a_number(g))
        yield "P", (*g, a_number(g))
        yield "V", run
        yield "W", (*run, length + pick((0, 0, 1, -1, 13, -length)))


def calls_with(generator):
    """One call of each kind on a generator, with plain other arguments."""
    yield "O", generator
    for code in "EIP":
        yield code, (*generator, 0)
    yield "V", (*generator, 0, 1)
    yield "W", (*generator, 0, 1, 120)


def refused_generators():
    for width in OTHER_WIDTHS:
        yield from calls_with((width, 0, 0, 0))
        yield from calls_with((width, TOP, TOP, TOP))
    for width in range(1, 64, 3):
        for place, excess in product(range(1, 4), (0, 1, TOP - 2**width)):
            g = [width, 1, 0, 0]
            g[place] = 2**width + excess
            yield pick(list(calls_with(tuple(g))))


def refused_runs():
    g = 4, 5, 3, 1
    for first, count in ((0, 0), (TOP, 0), (TOP, 1), (TOP - 1, 2), (2, TOP - 1), (TOP, TOP)):
        yield "V", (*g, first, count)
        yield "W", (*g, first, count, 120)
        yield "R", (ref.line_of((*g, first, count)),)
        yield "W", (*g, first, count, 0)


def bounds():
    """The bounds of document 01, each with its neighbour, and its row that is not proved."""
    yield from calls_with((64, TOP, TOP, TOP))
    yield from calls_with((4, 15, 15, 15))
    yield from calls_with((4, 16, 15, 15))
    for first, count in ((TOP - 1, 1), (TOP - 1, 2), (0, TOP), (1, TOP), (0, 0)):
        yield "V", (64, 1, 1, 0, first, count)
        yield "R", (ref.line_of((4, 5, 3, 1, first, count)),)
    yield "R", (b"4,5,3,1,07,2\n",)
    yield "F", (0, b"")
    yield "R", (b"",)
    yield "R", (ref.line_of((64, TOP, TOP, TOP, TOP - 10**18, 10**18)),)
    always = 4, 1, 0, 9
    for i in (*range(20), TOP):
        yield "E", (*always, i)
    yield "O", always
    for y in range(17):
        yield "I", (*always, y)
    for width in (*range(67), *REFUSED_WIDTHS):
        yield "C", (width,)


# Of document 001, table 1 (seeds where it has none: 0, 1), and one of even multiplier.
KNOWN = (
    (32, 16807, 273905815, 57794127),
    (36, 30517578125, 7261067085, 0),
    (39, 152587890725, 116177073375, 131131704506),
    (35, 129, 1, 0),
    (13, 125, 0, 1),
    (64, 6, 1, 1),
)


def long_sequences():
    """The first elements in a row and the last ones that can be asked for."""
    for g in KNOWN:
        for i in (*range(40), *range(TOP - 20, TOP + 1)):
            yield "E", (*g, i)


# Width 64: full period; only multiplied, with odd and even seeds; multipliers 1, 2^64 - 1, 0 and even.
WIDE = (
    (64, 6364136223846793005, 1442695040888963407, 0),
    (64, 5, 3, 1),
    (64, 3, 0, 1),
    (64, 13, 0, 2**40 + 1),
    (64, 5, 0, 6),
    (64, 11, 0, 2**63),
    (64, 1, 1, 0),
    (64, 1, 2**33, 5),
    (64, TOP, 7, 3),
    (64, TOP, 0, 1),
    (64, 0, 9, 4),
    (64, 0, 9, 9),
    (64, 2, 1, 1),
    (64, 2**32, 5, 9),
    (64, TOP - 1, 2**20, 77),
)


def wide_calls():
    """Each index that is found is followed by the element there."""
    for g in WIDE:
        yield "O", g
        shown = [ref.element(*g, i)[1] for i in (0, 1, 3, 64, below(2**64), TOP)]
        for number in (*shown, *(x ^ 1 << below(64) for x in shown), below(2**64), 0, TOP):
            yield "I", (*g, number)
            refusal, found, index = ref.index(*g, number)
            if found:
                yield "E", (*g, index)


def printed_tables():
    """The entries of Tables 2, 3 and 4 of document 000 as elements, and their indices."""
    powers, sums = (35, 129, 0, 1), (35, 129, 1, 0)
    for z in range(35):
        for g, i in ((powers, 2**z), (sums, 2**z), (powers, 2**35 - 2**z)):
            yield "E", (*g, i)
            yield "I", (*g, ref.element(*g, i)[1])


def one_way():
    """Predecessors refused for the number, the multiplier, or both."""
    for width in range(1, 65, 7):
        for multiplier, number in product((0, 1), (0, 2**width, TOP)):
            yield "P", (width, multiplier, 0, 0, min(number, TOP))


UNREADABLE = b"", b"07", b"00", b"+1", b"-1", b" 1", b"1 ", b"x", b"1e3", b"18446744073709551616", b"9" * 30
UNFIT = b"0", b"65", b"4096", b"18446744073709551615"


def damaged(line):
    """The line with one thing wrong, or by chance not."""
    at = below(len(line))
    fields = line[:-1].split(b",")
    changed = list(fields)
    changed[below(6)] = pick(pick((UNREADABLE, UNFIT)))
    return pick(
        (
            line[:at] + bytes([below(256)]) + line[at + 1 :],
            line[:at] + pick((b"0", b",", b"\n", b"\r", b" ", b"9")) + line[at:],
            line[:at] + line[at + 1 :],
            line[:-1],
            line[:-1] + b"\r\n",
            line + b"\n",
            line + line,
            b",".join(changed) + b"\n",
            b",".join(changed) + b"\n",
            b",".join(reversed(fields)) + b"\n",
            b",".join(fields[:5]) + b"\n",
            b",".join(fields + [b"1"]) + b"\n",
        )
    )


def short_runs():
    """Runs of small numbers, so that archives stay short and share some of what they show."""
    for _ in range(120):
        width = 1 + below(12)
        operands = (below(2**width) for _ in range(3))
        yield width, *operands, pick((0, below(30), below(2**64 - 100))), 1 + below(40)


def wide_runs():
    return [a_run(g) for g in generators() if g[0] % 5 == 0]


def reading_calls(runs=None):
    for run in runs or (*short_runs(), *wide_runs()):
        line = ref.line_of(run)
        yield "R", (line,)
        yield "R", (damaged(line),)


def a_shown_number(run):
    *generator, first, count = run
    return ref.element(*generator, first + below(count))[1]


def an_archive(runs):
    """The runs' lines as far as they fit the size of a vector; now and then one is damaged."""
    lines = [ref.line_of(run) for run in runs]
    if lines and below(4) == 0:
        at = below(len(lines))
        lines[at] = damaged(lines[at])
    while sum(map(len, lines)) > 240:
        lines.pop()
    return b"".join(lines)


def archives_of(pool, count):
    for _ in range(count):
        runs = [pick(pool) for _ in range(below(7))]
        archive = an_archive(runs)
        number = a_shown_number(pick(runs)) if runs and below(4) else below(2 ** (1 + below(12)))
        yield "F", (number, archive)
        yield "L", (pick((0, 1, 1 + below(4), len(runs), TOP)), archive)


def archive_calls():
    yield from archives_of([*short_runs(), *wide_runs()], 300)
    for number in (5, 49, 985):
        yield "F", (number, b"4,5,3,1,0,16\n10,371,995,73,100,8\n")


def refused_archives():
    """Two bad lines behind a good one that shows the number: the earlier of them is named."""
    good = b"4,5,3,1,0,16\n"
    bad = b"4,5,3,1,0\n", b"0,5,3,1,0,16\n", b"4,16,3,1,0,16\n", b"4,5,3,1,0,0\n", b"0,16,3,1,0,0\n"
    for earlier, later in product(bad, repeat=2):
        archive = good + earlier + good + later
        yield "F", (5, archive)
        yield "L", (1, archive)


def positions(count):
    """At the run's start and end, behind it, anywhere."""
    return 0, 1, max(count - 3, 0), count - 1, count, min(count + 1, TOP), below(count), below(2**64), TOP


def remaking_calls():
    for position, lent in product(range(10), range(6)):
        yield "M", (10, 371, 995, 73, 100, 8, position, lent)
    for g in generators():
        run = a_run(g)
        yield "M", (*run, pick(positions(run[5])), 5)
        yield "M", (*run, pick(positions(run[5])), below(6))
    for g in WIDE:
        for first, count in ((TOP - 1, 1), (TOP - 4, 4), (TOP - 9, 9), (0, TOP)):
            yield "M", (*g, first, count, max(count - 4, 0), 5)
    for run in ((65, 9, 9, 9, 0, 0), (4, 5, 16, 1, 0, 0), (4, 5, 3, 1, 0, 0), (4, 5, 3, 1, TOP - 1, 2)):
        for position, lent in product((0, 1, TOP), (0, 1, 5)):
            yield "M", (*run, position, lent)


# For the gap. Even multipliers, with numbers on the orbit and off it; and periods of 1, 2, 2^63 and 2^64.
EVEN = (1, 0, 1, 0), (4, 2, 0, 1), (4, 6, 1, 1), (64, 6, 1, 1)
PERIODS = (
    (1, 1, 0, 0),
    (4, 1, 0, 9),
    (64, 1, 0, 9),
    (1, 1, 1, 0),
    (4, 15, 0, 1),
    (64, TOP, 0, 1),
    (63, 5, 3, 1),
    (64, 1, 2, 5),
    (64, 1, 1, 0),
    (64, 6364136223846793005, 1442695040888963407, 0),
)


def refused_gaps():
    """Width or operand refused, beside an even multiplier too; and an even multiplier by itself."""
    for width in OTHER_WIDTHS:
        yield (width, 0, 0, 0), 0, 0
        yield (width, TOP, TOP, TOP), 0, 0
    for g in ((4, 16, 3, 1), (4, 17, 3, 1), (4, 5, 16, 1), (4, 6, 16, 1), (4, 5, 3, 16), (4, 6, 3, 16)):
        yield g, 1, 1
        yield g, 16, TOP
    for g in EVEN:
        shown, absent = ref.element(*g, 1)[1], 2 ** g[0] - 2
        for start, end in product((g[3], shown, absent, TOP), repeat=2):
            yield g, start, end


def period_of(g):
    return ref.orbit_of(ref.Generator(*g))[1]


def apart(g, i, d):
    """The numbers at an index and d behind it."""
    period = period_of(g)
    return ref.element(*g, i % period)[1], ref.element(*g, (i + d) % period)[1]


def gaps_near_the_bounds(generators=PERIODS):
    """About 0 and half the period, from a number near the seed and from any."""
    for g in generators:
        half = period_of(g) // 2
        for d in (0, 1, -1, half - 1, half, half + 1):
            start, end = apart(g, pick((0, 1, half, TOP, below(2**64))), d)
            yield g, start, end
            yield g, end, start


def absent_number(g):
    """Below 2^n if there is one, else above."""
    size = 2 ** g[0]
    tried = [below(size) for _ in range(8)] + [min(size + below(2), TOP)]
    return next(y for y in tried if not ref.index(*g, y)[1])


def gaps_with_absent_numbers():
    """From, to, both missing; the same number missing twice. A period of 2^64 misses none."""
    for g in ((10, 371, 995, 73), (5, 3, 0, 2), (4, 1, 0, 9), *WIDE, (63, 5, 3, 1)):
        if g[1] % 2 == 1 and ref.orbit(*g)[2] < 64:
            shown, absent = ref.element(*g, below(2**64))[1], absent_number(g)
            yield g, absent, shown
            yield g, shown, absent
            yield g, absent, absent
            yield g, absent, absent_number(g)


def worked_gaps():
    """Between all numbers of document 01's shortest orbits and one more; along its longer ones."""
    for g in ((5, 3, 0, 2), (4, 15, 0, 1), (1, 1, 1, 0), (4, 1, 0, 9)):
        numbers = {ref.element(*g, i)[1] for i in range(4)}
        for start, end in product(sorted(numbers | {2 ** g[0]}), repeat=2):
            yield g, start, end
    for end in range(17):
        yield (4, 5, 3, 1), 1, end
        yield (4, 5, 3, 1), end, 1
    for start, end in ((73, 49), (49, 985), (985, 49), (49, 75), (75, 49), (49, 1073)):
        yield (10, 371, 995, 73), start, end


def random_gaps():
    """On the orbit, near it, anywhere, or too wide."""
    for g in generators():
        if g[1] % 2 == 1:
            near = apart(g, below(2**64), pick((0, 1, -1, below(2**64), 2 ** below(64))))
            yield g, *pick((near, near, (a_number(g), a_number(g))))


def gap_calls():
    for part in (refused_gaps, gaps_near_the_bounds, gaps_with_absent_numbers, worked_gaps, random_gaps):
        for g, start, end in part():
            yield "G", (*g, start, end)


# For the low bits: even multipliers and long preperiods.
LONG_PREPERIODS = (64, 2, 1, 1), (64, 6, 1, 1), (64, TOP - 1, 2**20, 77), (33, 10, 3, 0)


def refused_places():
    """Width or operand refused, beside numbers of places that are out of range and not; numbers of
    places refused by themselves, and 64, which at width 64 is not."""
    for width in OTHER_WIDTHS:
        for operands, m in product(((0, 0, 0), (TOP, TOP, TOP)), (0, 1)):
            yield (width, *operands), m, 0
    for g in ((4, 16, 3, 1), (4, 17, 3, 1), (4, 5, 16, 1), (4, 6, 16, 1), (4, 5, 3, 16), (4, 6, 3, TOP)):
        for m in (0, 1, 4, 5, TOP):
            yield g, m, 1
    for g in ((1, 1, 1, 0), (1, 0, 1, 0), (4, 5, 3, 1), (4, 6, 1, 1), (63, 5, 3, 1), (64, 5, 3, 1), (64, 6, 1, 1)):
        for m in (0, g[0] + 1, 64, 65, 2**32, 2**63, TOP):
            yield g, m, pick((0, g[3], 1, TOP))


def worked_places():
    """Every number of every length on three of document 01's generators; some on its wider one."""
    for g in ((4, 5, 3, 1), (4, 2, 0, 1), (4, 6, 1, 1)):
        for m in range(1, 5):
            for y in range(2 ** g[0] + 1):
                yield g, m, y
    for m, y in product((1, 2, 5, 8, 9, 10), (49, 985, 75)):
        yield (10, 371, 995, 73), m, y % 2**m


def places_at_the_preperiod():
    """The last low bits that are at one index only, and those that stay."""
    for g in LONG_PREPERIODS:
        for m in (1, 2, 31, g[0] - 1, g[0]):
            t = ref.orbit(*ref.low_bits(ref.Generator(*g), m))[1]
            for i in (max(t - 1, 0), t):
                yield g, m, ref.element(*g, i)[1] % 2**m


def wide_places():
    """The low bits of elements at width 64, near the seed and anywhere; the same with one bit changed."""
    for g in WIDE:
        for m in (1 + below(64), 32, 63, 64):
            shown = ref.element(*g, pick((0, 1, 2, below(40), below(2**64), TOP)))[1] % 2**m
            yield g, m, pick((shown, shown ^ 1 << below(m)))


def low_number(g, m):
    """The low bits of an element, often one of the first; near them, anywhere, or too wide."""
    shown = ref.element(*g, pick((an_index(g[0]), below(g[0] + 2))))[1]
    low = shown % 2**m
    near = low ^ 1 << below(m)
    return pick((low, low, low, near, below(2**m), shown, min(2**m + below(2), TOP)))


def random_places():
    for g in generators():
        m = pick((1, g[0], 1 + below(g[0]), 1 + below(g[0])))
        yield g, m, low_number(g, m)


def places_calls():
    for part in (refused_places, worked_places, places_at_the_preperiod, wide_places, random_places):
        for g, m, number in part():
            yield "B", (*g, m, number)


# For the variety: even multipliers whose preperiods are short.
SHORT_PREPERIODS = (1, 0, 1, 0), (4, 2, 0, 1), (4, 6, 1, 1), (64, 0, 9, 4), (64, 0, 9, 9), (64, 2**32, 5, 9)


def varieties_in_the_preperiod():
    """All short runs about document 01's preperiods; about these and others, short and long, runs that
    end before the sequence comes to rest, when it does, and behind."""
    for g, first, count in product(((4, 2, 0, 1), (4, 6, 1, 1)), range(7), range(1, 8)):
        yield *g, first, count
    for g in (*SHORT_PREPERIODS, *LONG_PREPERIODS):
        t = ref.orbit(*g)[1]
        for first in sorted({0, 1, t // 2, max(t - 1, 0), t, t + 1, TOP - 1}):
            left = max(t - first, 0)
            for count in sorted({1, max(left, 1), left + 1, left + 2, 2**32, TOP - first}):
                yield *g, first, min(count, TOP - first)


def varieties_about_the_period(generators=(*PERIODS, (4, 5, 3, 1), (5, 3, 0, 2), (10, 371, 995, 73))):
    """A count of one less than the period, as many, one more, and all there are."""
    for g in generators:
        period = period_of(g)
        for first in (0, 1, below(2**63), TOP - 1):
            for count in sorted({max(period - 1, 1), period, period + 1, TOP}):
                yield *g, first, min(count, TOP - first)


def refused_varieties():
    """A count of 0 and a run that goes too far: beside a refused width, beside a refused operand, alone."""
    for g in ((65, 2, 0, 16), (4, 2, 0, 16), (4, 2, 0, 1)):
        for first, count in ((0, 0), (TOP, 1)):
            yield *g, first, count


def variety_calls():
    for part in (varieties_in_the_preperiod, varieties_about_the_period, refused_varieties):
        for run in part():
            yield "V", run


# Width 0. Its numbers are 1 to PRIME - 1, and its period is the product of the FACTORS.
PRIME, PERIOD = ref.PRIME_MODULUS, ref.PRIME_PERIOD
FACTORS = 2, 9, 7, 11, 31, 151, 331
ABSENT = 0, PRIME, PRIME + 1, PRIME + 16807, 2**31, 2**32 + 1, 2**63, TOP


def prime(seed):
    return 0, 16807, 0, seed


def a_residue():
    """From 1 to PRIME - 1."""
    return 1 + below(PERIOD)


def prime_generators(more):
    return [prime(seed) for seed in (1, 2, 16807, PRIME - 1, *(a_residue() for _ in range(more)))]


def prime_elements():
    """The first ones in a row, and element 10,000, which Park and Miller published; of more seeds about
    the period's end, the last ones, and any."""
    for i in (*range(40), 10000):
        yield "E", (*prime(1), i)
    for g in prime_generators(8):
        yield "O", g
        for i in (0, 1, 2, PERIOD - 1, PERIOD, PERIOD + 1, 2**32, 2**63, TOP - 1, TOP, below(PERIOD), below(2**64)):
            yield "E", (*g, i)


def prime_indices():
    """The seed, 1, the largest number, the one before the seed, and any; those that never occur."""
    for g in prime_generators(8):
        before = ref.element(*g, PERIOD - 1)[1]
        for number in (g[3], 1, 2, PRIME - 1, before, *(a_residue() for _ in range(4)), *ABSENT):
            yield "I", (*g, number)
            yield "P", (*g, number)


def chosen_remainders():
    """By the factors: one of them other than 0; each 0 or the largest, by chance."""
    for place, factor in enumerate(FACTORS):
        for remainder in sorted({1, 2 % factor, factor // 3, factor * 2 // 3, factor - 1} - {0}):
            yield [remainder if at == place else 0 for at in range(len(FACTORS))]
    for _ in range(60):
        yield [pick((0, factor - 1)) for factor in FACTORS]


def prime_digits():
    """The elements at the indices that leave these remainders."""
    for remainders in chosen_remainders():
        others = [PERIOD // factor for factor in FACTORS]
        i = sum(r * k * pow(k, -1, factor) for r, k, factor in zip(remainders, others, FACTORS))
        g = prime(pick((1, a_residue())))
        yield "I", (*g, ref.element(*g, i % PERIOD)[1])


def prime_gaps():
    """About 0 and half the period; any; with a number that never occurs first, second and twice."""
    yield from gaps_near_the_bounds(prime_generators(4))
    for g in prime_generators(20):
        yield g, a_residue(), a_residue()
        yield g, pick(ABSENT), a_residue()
        yield g, g[3], pick(ABSENT)
        yield g, pick(ABSENT), pick(ABSENT)


def prime_places():
    for g in prime_generators(1):
        for m, y in product((0, 1, 31, 32, 64, 65, TOP), (0, 1, g[3], TOP)):
            yield g, m, y


def prime_runs():
    """Anywhere, and across the period's end."""
    for g in prime_generators(30):
        yield a_run(g)
        yield *g, pick((0, PERIOD - 3, 2 * PERIOD - 2, below(2**64 - 100))), 1 + below(40)


def prime_run_calls():
    for run in prime_runs():
        length, count = len(ref.line_of(run)), run[5]
        yield "V", run
        yield "W", (*run, length + pick((0, 0, 1, -1, 13, -length)))
        yield "M", (*run, pick((0, 1, count - 1, count, below(count), TOP)), pick((5, 5, below(6))))


# Multiplier, increment and seed, of which at least one is refused at width 0.
PRIME_OPERANDS = (
    *((multiplier, 0, 1) for multiplier in (0, 1, 5, 16806, 16808, 16807 + PRIME, 2**32 + 16807, TOP)),
    *((16807, increment, 1) for increment in (1, PRIME, 2**32, TOP)),
    *((16807, 0, seed) for seed in (0, PRIME, PRIME + 1, 2**32 + 1, TOP)),
    (16808, 1, 0),
)


def refused_at_width_0(g):
    """Every call, with what would be refused by itself: 5, 6, 8, 9; and an archive."""
    yield from calls_with(g)
    yield "P", (*g, PRIME)
    yield "B", (*g, 0, 0)
    yield "B", (*g, 1, 1)
    yield "G", (*g, 1, 0)
    yield "V", (*g, TOP, 1)
    yield "W", (*g, 0, 0, 0)
    yield "W", (*g, 0, 1, 0)
    yield "M", (*g, 0, 0, 0, 5)
    yield "M", (*g, 0, 1, 0, 5)
    for count in (0, 1):
        line = ref.line_of((*g, 0, count))
        yield "R", (line,)
        yield "F", (1, b"0,16807,0,1,0,5\n" + line)


def refusals_at_width_0():
    """Each operand that is refused, some at width 65 too; and operands that are not."""
    for operands in PRIME_OPERANDS:
        yield from refused_at_width_0((0, *operands))
    for operands in ((16807, 0, 1), (16807, 0, 0)):
        yield from refused_at_width_0((65, *operands))
    for seed in (1, PRIME - 1):
        yield from refused_at_width_0(prime(seed))


LINEAR_LINE, PRIME_LINE = b"31,5,3,1,0,9\n", b"0,16807,0,1,0,5\n"


def lookups_about_width_0(archives):
    """Of numbers that PRIME_LINE shows, that stand behind the end of its run or before it, and others."""
    shown = [ref.element(*prime(1), i)[1] for i in (*range(7), PERIOD - 1)]
    for archive in archives:
        for number in (*shown, 8, 43, 0, PRIME, PRIME + 1, TOP):
            yield "F", (number, archive)


def worked_mixed_archives():
    """A number that a line of width 0 and one of another width show, in both orders; one that width 0
    shows only behind the end of its run, before it, or never; all of them beside equal lines too."""
    linear, prime_line = LINEAR_LINE, PRIME_LINE
    in_each_order = linear + prime_line, prime_line + linear
    yield from lookups_about_width_0((*in_each_order, prime_line * 2, linear + prime_line * 2))
    shown = [ref.element(*prime(1), i)[1] for i in range(5)]
    same_number = b"40,1,1,%d,0,9\n" % shown[4]
    for archive in (same_number + prime_line, prime_line + same_number):
        yield "F", (shown[4], archive)
        yield "L", (2, archive)
    for bad in (b"0,16807,0,0,0,5\n", b"65,16807,0,1,0,5\n", b"0,16807,0,1,0,0\n", b"0,16807,0,1,0,05\n"):
        for archive in (linear + bad, prime_line + bad, bad + prime_line, prime_line + bad + b"65,5,3,1,0,0\n"):
            yield "F", (1, archive)
            yield "L", (1, archive)


def prime_calls():
    yield from prime_elements()
    yield from prime_indices()
    yield from prime_digits()
    yield from (("G", (*g, start, end)) for g, start, end in prime_gaps())
    yield from (("B", (*g, m, number)) for g, m, number in prime_places())
    yield from (("V", run) for run in varieties_about_the_period(prime_generators(2)))
    yield from prime_run_calls()
    yield from refusals_at_width_0()
    yield from reading_calls([*prime_runs()])
    yield from worked_mixed_archives()
    yield from archives_of([*prime_runs(), *short_runs(), *wide_runs()], 120)


# For the summary: generators of each kind whose lines are short, and lines that are refused.
BRIEF = (4, 5, 3, 1), (4, 2, 0, 1), (64, 1, 1, 0), (0, 16807, 0, 1), (1, 1, 1, 0), (64, 6, 1, 1), (5, 3, 0, 2)
BAD_LINES = (
    b"4,5,3,1,0\n",
    b"4,5,3,1,0,18446744073709551616\n",
    b"65,5,3,1,0,16\n",
    b"4,16,3,1,0,16\n",
    b"0,16807,0,0,0,16\n",
    b"4,5,3,1,0,0\n",
    b"4,5,3,1,1,18446744073709551615\n",
)


def runs_with(*counts):
    """Different runs, up to seven."""
    return [(*g, 0, count) for g, count in zip(BRIEF, counts)]


def lines_with(*counts):
    return [ref.line_of(run) for run in runs_with(*counts)]


def shares(total, parts):
    """So many counts with this sum: each as small as can be, as large, as large as the others, or any."""
    counts = []
    for others in range(parts - 1, -1, -1):
        least, most = max(total - others * TOP, 1), min(total - others, TOP)
        counts.append(pick((least, most, total // (others + 1), least + below(most - least + 1))))
        total -= counts[-1]
    return counts


# Twenty different ones.
SHORT_LINES = [ref.line_of((4 + k % 6, 5, k % 10, 1, 0, 1 + k % 9)) for k in range(20)]


def plain_archives():
    """None, document 01's, equal lines; one to twenty short ones; each of the seven kinds by itself."""
    yield b""
    yield b"4,5,3,1,0,16\n10,371,995,73,100,8\n"
    yield b"4,5,3,1,0,16\n4,5,3,1,0,16\n"
    for length in (1, 2, 3, 9, 10, 11, 20):
        yield b"".join(SHORT_LINES[:length])
    for g in BRIEF:
        for count in (1, 20, TOP):
            yield ref.line_of((*g, 0, count))


def sums_about_the_limit():
    """The largest sum and those above it, some of which are 0 or small modulo 2^64."""
    for parts, total in product(range(2, 8), (TOP - 1, TOP, TOP + 1, TOP + 2, TOP + 25, 2 * TOP, 2**65, 3 * 2**64)):
        if total <= parts * TOP:
            yield b"".join(lines_with(*shares(total, parts)))


def bad_lines_about_a_sum():
    """A bad line at each place among lines whose sum is small, and too large; two of them behind one that
    is too large. The first bad line is named, and never the sum."""
    for bad, counts in product(BAD_LINES, ((1, 2, 3), (TOP, 1, TOP))):
        for place in range(4):
            lines = lines_with(*counts)
            lines.insert(place, bad)
            yield b"".join(lines)
    for earlier, later in product(BAD_LINES[::2], repeat=2):
        yield b"".join((*lines_with(TOP, 2), earlier, later))
    for counts in ((1, 2), (TOP, 2)):
        archive = b"".join(lines_with(*counts))
        yield archive[:-1]
        yield archive + b"\n"
        yield b"\n" + archive


def random_sums():
    """Runs of every kind; sums about the largest. Now and then with a damaged line."""
    pool = [*short_runs(), *wide_runs(), *prime_runs()]
    for _ in range(50):
        yield an_archive([pick(pool) for _ in range(below(12))])
    for _ in range(50):
        total = TOP + pick((-1, 0, 0, 1, 1, 2, below(100)))
        yield an_archive(runs_with(*shares(total, 2 + below(6))))


def summary_calls():
    for part in (plain_archives, sums_about_the_limit, bad_lines_about_a_sum, random_sums):
        for archive in part():
            yield "S", (archive,)


# For lines that equal an earlier one.


def in_place_of_equal_lines():
    """That of two lines that show a number the earlier is named, and that both are counted: by different lines,
    since equal ones are refused."""
    shorter = b"0,16807,0,1,0,4\n"
    yield from lookups_about_width_0((PRIME_LINE + shorter, LINEAR_LINE + PRIME_LINE + shorter))
    yield "S", (b"4,5,3,1,0,16\n4,5,3,1,1,16\n",)


def twins_at_each_place():
    """Seven lines, and with one of them repeated at each later place; the first of many repeated as the last."""
    lines = lines_with(16, 8, 5, 9, 3, 2, 7)
    yield lines
    for earlier, later in combinations(range(8), 2):
        yield [*lines[:later], lines[earlier], *lines[later:]]
    for length in (2, 16, 17, 18):
        yield [*SHORT_LINES[:length], SHORT_LINES[0]]


def twins_in_each_order():
    """Two lines, each up to four times."""
    for length in (2, 3, 4):
        yield from product((b"4,5,3,1,0,16\n", b"10,371,995,1,0,8\n"), repeat=length)


def near_twins():
    """Lines that differ in one digit, the last one too, or of which one begins as the other does."""
    line = b"10,371,345,1,0,18\n"
    for at, byte in enumerate(line):
        if byte in b"0123456789":
            changed = line[:at] + b"%d" % ((byte - ord("0") + 1) % 10) + line[at + 1 :]
            yield line, changed
            yield line, changed, line
            yield line, changed, changed
    yield from permutations([b"4,5,3,1,0,1%s\n" % more for more in (b"", b"6", b"60", b"61", b"600")], 2)


def bad_lines_about_twins():
    """A bad line at each place about a twin; a bad line twice; byte 10 missing behind a twin and in it."""
    a, b, c = lines_with(16, 8, 5)
    for bad, place in product(BAD_LINES, range(5)):
        lines = [a, b, a, c]
        lines.insert(place, bad)
        yield lines
    for bad in BAD_LINES:
        yield a, bad, bad
    yield from ((a, a[:-1]), (a, b, a[:-1]), (a, a, a[:-1]), (a, a, b[:-1]), (a, b, a, b"\n"))


def twins_about_a_sum():
    """Beside a sum that is too large without the twin, that is so with it, and that would be small modulo 2^64."""
    for counts in ((TOP, TOP, 1), (1, TOP, TOP), (2**63, 1, 2), (TOP, 1, 2), (2**62, 2**63, 2**62)):
        lines = lines_with(*counts)
        yield lines
        for earlier, later in combinations(range(4), 2):
            yield [*lines[:later], lines[earlier], *lines[later:]]


# How the library keeps lines to find their twins: by a hash of the six numbers, in 64 slots, or in more for a longer
# archive than can stand here. Only lines of one slot are compared.
SLOTS = 64
HASH_FACTOR = 0x9E3779B97F4A7C15


def hash_of(run):
    value = 0
    for number in run:
        value = (value + number) * HASH_FACTOR % 2**64
    return value


def slot_of(run):
    return (hash_of(run) >> 32) * SLOTS >> 32


# As chains/proofs/Examples.antt has them.
assert [slot_of(run) for run in ((4, 5, 3, 1, 0, 16), (10, 371, 995, 73, 100, 8))] == [57, 59]


def runs_in_one_slot():
    runs = ((9, 5, 3, 1, 0, count) for count in range(1, TOP))
    return (run for run in runs if slot_of(run) == slot_of((9, 5, 3, 1, 0, 1)))


def runs_of_one_hash():
    """What the increment adds to the hash, the seed takes from it."""
    for increment in range(TOP):
        run = 64, 5, increment, (1 - increment * HASH_FACTOR) % 2**64, 0, 9
        assert hash_of(run) == hash_of((64, 5, 0, 1, 0, 9))
        yield run


def beginnings_in_one_slot():
    """Pairs of runs of which one has the other's line, up to its byte 10, and a digit more."""
    for count, digit in product(range(1, 200), range(10)):
        run, longer = (9, 5, 3, 1, 0, count), (9, 5, 3, 1, 0, 10 * count + digit)
        if slot_of(run) == slot_of(longer):
            yield run, longer


def colliding_lines():
    """Lines of one slot and of one hash, as many as fit a vector, and with each of them repeated as the last;
    two of one slot of which one begins as the other does, in both orders."""
    for runs, fitting in ((runs_in_one_slot(), 15), (runs_of_one_hash(), 5)):
        lines = [ref.line_of(run) for run in islice(runs, fitting)]
        yield lines
        yield from ((*lines, twin) for twin in lines)
    for runs in islice(beginnings_in_one_slot(), 8):
        yield from permutations(map(ref.line_of, runs))


def random_twins():
    """Different runs of every kind, one of which comes again further on. Now and then with a damaged line."""
    pool = [*short_runs(), *wide_runs(), *prime_runs()]
    for _ in range(60):
        runs = list(dict.fromkeys(pick(pool) for _ in range(2 + below(9))))
        twin = below(len(runs))
        runs.insert(twin + 1 + below(len(runs) - twin), runs[twin])
        archive = an_archive(runs)
        number = a_shown_number(pick(runs))
        yield from (("F", (number, archive)), ("L", (1 + below(len(runs)), archive)), ("S", (archive,)))


def twin_calls():
    yield from in_place_of_equal_lines()
    parts = twins_at_each_place, twins_in_each_order, near_twins, bad_lines_about_twins, twins_about_a_sum
    for part in (*parts, colliding_lines):
        for lines in part():
            archive = b"".join(lines)
            yield from (("F", (1, archive)), ("L", (1, archive)), ("L", (len(lines), archive)), ("S", (archive,)))
    yield from random_twins()


# For numbers of which 8, 16 or 32 bits are to be told from the whole.
BEYOND = 2**8, 2**16, 2**32, 2**63


def plain_calls():
    """Each call, with small numbers: at a narrow width, where a larger one is mostly refused; at width 64, where it is
    not; at width 0; and with a preperiod, where the variety depends on the first index."""
    for g in ((4, 5, 3, 1), (64, 5, 3, 1), prime(1), (4, 2, 0, 1)):
        yield "O", g
        for code, numbers in (("E", (1,)), ("I", (1,)), ("B", (2, 1)), ("G", (1, 1)), ("P", (8,))):
            yield code, (*g, *numbers)
        yield "V", (*g, 0, 16)
        yield "W", (*g, 0, 16, 120)
        yield "M", (*g, 0, 3, 1, 5)
    yield "C", (36,)
    yield "L", (1, b"4,5,3,1,0,16\n")
    yield "F", (5, b"4,5,3,1,0,16\n")


def each_beyond(calls):
    """Each number of these calls with each of BEYOND added, if that makes another reply than the lower bits would; runs
    also as lines. The last argument of some calls is no number, or how much is lent, for which there is little room."""
    asked, told = set(), set()
    for code, args in calls:
        for place, more in product(range(len(args) - (code in "LFWMT")), BEYOND):
            larger, lower = ((*args[:place], n, *args[place + 1 :]) for n in (args[place] + more, args[place] % more))
            asked.add((code, place, more))
            if REPLY[code](*larger) != REPLY[code](*lower):
                told.add((code, place, more))
                yield code, larger
            if code == "V":
                yield from (("R", (ref.line_of(larger),)), ("S", (ref.line_of(larger),)))
    assert told == asked


def numbers_beyond():
    yield from each_beyond(plain_calls())
    yield "W", (4, 5, 3, 1, 0, 16, 256)


# For the player.
BLANK, NO_RUN = (0,) * 15, (0,) * 6
SHOWN_RUN = 10, 371, 995, 73, 100, 8


def a_record(run, position, *marks):
    """Marks that are not given are unset."""
    return *run, position, *chain(*marks), *(0, 0) * (4 - len(marks))


def plays(record, run, *calls):
    """A list for each of these calls, which ends with it; behind eight calls the next list begins, with the record that
    they leave."""
    while calls:
        for end in range(1, len(calls[:8]) + 1):
            yield "K", (*record, *run, *chain(*calls[:end]))
        record = player_reply(*record, *run, *chain(*calls[:8]))[2:]
        calls = calls[8:]


def worked_plays():
    """Document 01's run, to its end and back; places marked, and returned to."""
    on, back = ((SHOW, 0), (FORWARD, 1)), ((SHOW, 0), (BACK, 1))
    yield from plays(BLANK, SHOWN_RUN, (OPEN, 0), *on * 8, *back * 8)
    first, second = ((FORWARD, 2), (MARK, 0)), ((FORWARD, 3), (MARK, 1))
    returns = chain(*(((RETURN, mark), (SHOW, 0)) for mark in (0, 1, 2, 0)))
    again = (BACK, 1), (MARK, 0), (FORWARD, 6), (RETURN, 0), (SHOW, 0)
    yield from plays(BLANK, SHOWN_RUN, (OPEN, 0), *first, *second, *returns, *again, (OPEN, 0), (RETURN, 1))


# Two of even multiplier, in which no number tells the one before it; of width 0; the longest; at a sequence's far end.
PLAYED_RUNS = (
    (4, 2, 0, 1, 0, 6),
    (64, 6, 1, 1, 60, 9),
    (*prime(1), 0, 5),
    (64, 1, 1, 0, 0, TOP),
    (64, 5, 3, 1, TOP - 7, 7),
)


def plays_backward():
    """From the last position, which is marked."""
    for run in PLAYED_RUNS:
        steps_back = (BACK, 1), (SHOW, 0), (BACK, run[5] - 2), (SHOW, 0)
        yield from plays(BLANK, run, (OPEN, 0), (FORWARD, run[5] - 1), (MARK, 3), *steps_back, (RETURN, 3), (SHOW, 0))


# Accepted ones, and such as are refused for one thing, two or three.
HELD_RUNS = (
    SHOWN_RUN,
    (65, 371, 995, 73, 100, 8),
    (10, 1024, 995, 73, 100, 8),
    (10, 371, 995, 73, 100, 0),
    (10, 371, 995, 73, TOP - 7, 8),
    (65, 1024, 995, 73, 100, 8),
    (65, 371, 995, 73, 100, 0),
    (10, 371, 1024, 73, 100, 0),
    (65, 371, 995, 1024, TOP - 7, 8),
    (*prime(0), 100, 8),
)
# Mark 0 is set and on the run; 1 is unset; 2 is set, but not on the run; 3 is neither.
MARKED = (1, 5), (0, 6), (1, 8), (0, TOP)
MOVES = *((FORWARD, steps) for steps in (1, 8)), *((BACK, steps) for steps in (1, 4))
ON_MARKS = *((MARK, mark) for mark in (1, 4)), *((RETURN, mark) for mark in range(5))


def refusals_of_players():
    """Each run with a position that is on it and one that is not; each call with an argument that is refused and one
    that is not. Then each run opened, over a record that is marked and one of the largest numbers."""
    for run, position, call in product(HELD_RUNS, (3, 8), (*MOVES, *ON_MARKS, (SHOW, 0))):
        yield from plays(a_record(run, position, *MARKED), NO_RUN, call)
    for run, record in product(HELD_RUNS, (a_record(SHOWN_RUN, 3, *MARKED), (TOP,) * 15)):
        yield from plays(record, run, (OPEN, 0), (RETURN, 0), (SHOW, 0))


def moves_about_the_ends():
    """By as many steps as lead to an end of the run, by one more and one less, and by so many that the sum would be 0
    or 1 modulo 2^64; and what is shown at the ends."""
    for count in (1, 8, 2**32, 2**63, TOP):
        for position in sorted({0, count // 3, count - 1}):
            left, over = count - position, 2**64 - position
            forward = {left - 1, left, left + 1, over, over + 1, TOP}
            back = {position - 1, position, position + 1, TOP}
            run = *pick((*WIDE, *EVEN, prime(1))), 0, count
            for call, steps in ((FORWARD, forward), (BACK, back)):
                for k in sorted(k for k in steps if 0 <= k <= TOP):
                    yield from plays(a_record(run, position), NO_RUN, (call, k))
                    if k in (left - 1, position):
                        yield from plays(a_record(run, position), NO_RUN, (call, k), (SHOW, 0))


ALL_SET = (1, 7), (7, 2), (2**32, 4), (2**63, 1)
BAD_MARKS = 4, 5, 7, 8, 255, *(more + m for more, m in zip((2**8, 2**16, 2**32, 2**63), range(4))), 2**63, TOP
SET_FIELDS = 0, 1, 2, 7, 2**8, 2**16, 2**32, 2**63, TOP


def marks_of_players():
    """Each mark set, and then each returned to, where none was set and where all were; marks that there are not."""
    for marks in ((), ALL_SET):
        record = a_record(SHOWN_RUN, 6, *marks)
        for mark, other in product(range(4), repeat=2):
            yield from plays(record, NO_RUN, (MARK, mark), (BACK, 3), (RETURN, other))
    for call, mark in product((MARK, RETURN), BAD_MARKS):
        yield from plays(a_record(SHOWN_RUN, 6, *ALL_SET), NO_RUN, (call, mark))


def fields_of_marks():
    """Each mark with numbers of every size in its field set; with positions on the run and not. It is returned to, and
    then set."""
    positions = 0, 7, 8, 9, 2**8, 2**32 + 1, 2**63 + 1, TOP
    fields = [*((number, 5) for number in SET_FIELDS), *((1, position) for position in positions)]
    for mark, field in product(range(4), fields):
        marks = [(0, 0)] * mark + [field]
        yield from plays(a_record(SHOWN_RUN, 3, *marks), NO_RUN, (RETURN, mark), (MARK, mark))


def some_steps(count):
    return pick((0, 1, 1, below(8), below(count), below(count), count - 1, count, below(2**64), TOP))


def a_player_call(count, marks=(0, 1, 2, 3)):
    call = pick((FORWARD, BACK, MARK, RETURN, SHOW))
    if call == SHOW:
        return call, 0
    if call in (MARK, RETURN):
        return call, pick((*marks, *marks, 4, below(2**64)))
    return call, some_steps(count)


def runs_to_play():
    """Of every width and kind of multiplier; of width 0."""
    return [a_run(g) for g in (*generators(), *WIDE, *prime_generators(60))]


def opened_players():
    """Opened, moved on and marked there; then five calls."""
    pool = runs_to_play()
    for _ in range(20):
        run, mark = pick(pool), below(4)
        calls = [a_player_call(run[5], (mark, mark, below(4))) for _ in range(5)]
        yield from plays(BLANK, run, (OPEN, 0), (FORWARD, below(run[5])), (MARK, mark), *calls)


def kept_players():
    """An accepted run, a position on it and marks of every kind; now and then another run is opened."""
    pool = runs_to_play()
    for _ in range(40):
        run = pick(pool)
        count = run[5]
        marks = [(pick((0, 1, 1, 2**63)), pick((below(count), below(count), count - 1, count, TOP))) for _ in range(4)]
        calls = [a_player_call(count) for _ in range(3)]
        if below(4) == 0:
            calls[1] = OPEN, 0
        yield from plays(a_record(run, below(count), *marks), pick(pool), *calls)


def a_word():
    return pick((0, 1, below(2**64), below(2**64), 2 ** below(64), TOP))


def any_records():
    """Any numbers in every field, often with a width of 64, at which all operands are accepted; so the run to open."""
    for _ in range(80):
        record, run = ([pick((64, 64, 64, a_word())), *(a_word() for _ in range(length - 1))] for length in (15, 6))
        yield from plays(record, run, pick(((OPEN, 0), a_player_call(TOP))), a_player_call(TOP))


def plain_lists():
    """Lists of one call with small numbers, and places of numbers on which its answer depends: the run and the position
    held, the argument, a mark, the run opened."""
    narrow, wide, marks = (4, 5, 3, 1, 0, 16), (64, 5, 3, 1, 0, TOP), [(1, 2)] * 4
    for call in ((FORWARD, 1), (BACK, 1), (MARK, 1), (RETURN, 0), (SHOW, 0)):
        argument = (22,) if call[0] != SHOW else ()
        yield (*a_record(narrow, 1, *marks), *NO_RUN, *call), (0, 1, 2, 3, 6, *argument)
        yield (*a_record(wide, 1, *marks), *NO_RUN, *call), (4, 6, *argument)
        yield (*a_record(narrow, 20, *marks), *NO_RUN, *call), (5,)
    for run, mark in product((narrow, wide), range(4)):
        yield (*a_record(run, 1, *marks), *NO_RUN, RETURN, mark), (8 + 2 * mark,)
        yield (*a_record(run, 1), *NO_RUN, RETURN, mark), (7 + 2 * mark,)
    for g in ((4, 5, 3, 1), (64, 5, 3, 1), prime(1)):
        yield (*BLANK, *g, 0, 16, OPEN, 0), range(15, 21)


def effect_of(numbers):
    """The answer to a list, and which numbers of the record it changes to which: not those that are only kept."""
    refusal, value, *record = player_reply(*numbers)
    return refusal, value, [(at, new) for at, (old, new) in enumerate(zip(numbers, record)) if old != new]


def player_numbers_beyond():
    """As numbers_beyond; but that the record shows its numbers again does not count, another answer or change has to
    come of them. Left out are codes, the argument of open and show, and what a call only keeps or writes over."""
    told = set()
    for numbers, places in plain_lists():
        for place, more in product(places, BEYOND):
            larger, lower = (
                (*numbers[:place], n, *numbers[place + 1 :]) for n in (numbers[place] + more, numbers[place] % more)
            )
            if effect_of(larger) != effect_of(lower):
                told.add((numbers[21], place, more))
                yield "K", larger
    held = *product(range(FORWARD, SHOW + 1), range(7)), *product(range(FORWARD, SHOW), (22,))
    asked = *held, *product((RETURN,), range(7, 15)), *product((OPEN,), range(15, 21))
    assert told == {(call, place, more) for (call, place), more in product(asked, BEYOND)}


def player_calls():
    worked = worked_plays, plays_backward, refusals_of_players, moves_about_the_ends, marks_of_players, fields_of_marks
    for part in (*worked, opened_players, kept_players, any_records, player_numbers_beyond):
        yield from part()


# For the fixes.


def worked_fixes():
    """Document 01's run and one behind its end; every number of the narrowest widths, first as east, then as north."""
    for fix in range(5):
        yield *SHOWN_RUN, fix
    for width, first in product(range(1, 5), (0, 1)):
        for fix in range(2 ** (width - 1)):
            yield width, 1, 1, 0, first, 2**width, fix


def numbers_of_width(width):
    """About the ends and the middle of the width, and any. Above 53 also with nothing but the bits that are dropped,
    with all of these beside others, and the next numbers without them."""
    size, half, unit = 2**width, 2 ** (width - 1), 2 ** max(width - 53, 0)
    numbers = 0, 1, half - 1, half, size - 1, below(size)
    if width > 53:
        numbers += unit - 1, unit, half - unit, half + unit - 1, half + unit, size - unit, below(size) | unit - 1
    return list(dict.fromkeys(numbers))


def run_showing(width, east, north, first, count, fix):
    """A run of any odd multiplier whose fix is made of these numbers: so the increment, and back to the seed."""
    size, multiplier = 2**width, below(2**width) | 1
    increment, inverse = (north - multiplier * east) % size, pow(multiplier, -1, size)
    seed = ref.element(width, inverse, -increment * inverse % size, east, first + 2 * fix)[1]
    return width, multiplier, increment, seed, first, count


def fixes_of_numbers():
    """Each of these numbers once as east and once as north, at the start of a sequence or further on, and with the last
    fix of a run or an earlier one."""
    for width in range(1, 65):
        numbers = numbers_of_width(width)
        for east, north in zip(numbers, (*numbers[1:], numbers[0])):
            first, fix = pick((0, 1, below(100), below(2**62))), pick((0, 1, below(100), below(2**62)))
            count = 2 * fix + 2 + pick((0, 0, 1, below(100)))
            yield *run_showing(width, east, north, first, count, fix), fix


def fixes_of_powers():
    """For every i, 2^i, 2^(n - 1) + 2^i and 2^(n - 1) - 2^i, whose deviates have every exponent and both signs. A step
    doubles what is added or taken off."""
    for width in (53, 54, 64):
        half = 2 ** (width - 1)
        for increment, seed in ((0, 1), (half, half + 1), (half, half - 1)):
            for fix in range((width + 1) // 2):
                yield width, 2, increment, seed, 0, width + 1, fix


def ends(count):
    """At the start, about the last fix of a run with this count, and about 2^63: from there on 2 fix + 1 is above 2^64,
    and modulo that a position of the run again."""
    last = count // 2
    tried = 0, last - 2, last - 1, last, last + 1, 2**63 - 2, 2**63 - 1, 2**63, 2**63 + 1, 2**63 + last - 1, TOP
    return sorted({fix for fix in tried if 0 <= fix <= TOP})


def fixes_about_the_end():
    """Runs with an even and an odd count, from the start of a sequence on and at its far end."""
    for count in (1, 2, 3, 8, 9, 2**32, 2**32 + 1, 2**63 - 1, 2**63, TOP - 1, TOP):
        for first in sorted({0, TOP - count}):
            for fix in ends(count):
                yield *pick((*WIDE, *PERIODS)), first, count, fix


def refused_fixes():
    """For the width, an operand, the run, width 0 or the position: for one of them, two, or more; and for none."""
    for width in REFUSED_WIDTHS:
        yield width, 0, 0, 1, 0, 8, 0
        yield width, TOP, TOP, TOP, TOP, 0, TOP
    shown, on_prime = SHOWN_RUN[:4], prime(1)
    wrong = [(*shown[:at], 1024, *shown[at + 1 :]) for at in (1, 2, 3)]
    wide = [(65, *g[1:]) for g in (shown, wrong[0], on_prime)]
    for g in (shown, *wide, *wrong, on_prime, prime(PRIME - 1), prime(0), prime(PRIME)):
        for first, count in ((100, 8), (100, 0), (TOP - 7, 8), (TOP, TOP), (TOP, 1)):
            for fix in (3, 4):
                yield *g, first, count, fix
    for operands in PRIME_OPERANDS:
        yield 0, *operands, 0, 8, pick((0, 4))
    for count, fix in ((1, 0), (2, 0), (TOP, 2**63), (TOP, 2**63 - 2), (TOP, TOP)):
        yield *on_prime, 0, count, fix


def a_fix(count):
    """Mostly on the run, if that has two positions."""
    last = max(count // 2 - 1, 0)
    return pick((0, last, *(below(last + 1) for _ in range(4)), last + 1, below(2**64)))


def random_fixes():
    """Of every width and kind of multiplier; of width 0. Seldom on a run of one position, which has no fix."""
    for g in (*generators(), *WIDE, *prime_generators(4)):
        run = a_run(g)
        if run[5] > 1 or below(8) == 0:
            yield *run, a_fix(run[5])


def plain_fixes():
    """At a narrow width, where larger numbers are refused; at width 64, where they are not; behind the end of a run."""
    for g, count, fix in (((4, 5, 3, 1), 16, 1), (WIDE[0], 2**62, 1), ((4, 5, 3, 1), 16, 8)):
        yield "D", (*g, 0, count, fix)


def fix_calls():
    about = fixes_of_numbers, fixes_of_powers, fixes_about_the_end
    for part in (worked_fixes, *about, refused_fixes, random_fixes):
        for numbers in part():
            yield "D", numbers
    yield from each_beyond(plain_fixes())


# For the lanes.

# Short; of even multiplier; long, and far on in its sequence.
PARTED_RUNS = (4, 5, 3, 1, 0, 16), (7, 6, 1, 1, 0, 25), (*WIDE[0], 2**63 + 5, 2**62 + 7)


def worked_lanes():
    """Document 01's run in up to nine lanes, with one lane more than there are; every lane of these runs."""
    for lanes in range(10):
        for lane in range(lanes + 1):
            yield *SHOWN_RUN, lanes, lane
    for run, lanes in product(PARTED_RUNS, range(1, 17)):
        for lane in range(lanes):
            yield *run, lanes, lane


def lanes_of_counts():
    """For each number of lanes, counts about it, its double and its largest multiple, from the start of a sequence or
    at its far end: the first lane, the last, and both sides of where lanes begin to have one position less."""
    for lanes, more in product(range(1, 17), (-1, 0, 1)):
        for count in (lanes + more, 2 * lanes + more, min(TOP - TOP % lanes + more, TOP)):
            for lane in sorted({0, max(count % lanes - 1, 0), count % lanes, lanes - 1}):
                yield *pick((*WIDE, *PERIODS)), pick((0, TOP - count)), count, lanes, lane


def lanes_of_each_width():
    """Of every kind of multiplier."""
    for g in (*generators(), *WIDE):
        lanes = 1 + below(16)
        count = lanes + pick((0, below(3), below(100), 2 ** below(63), below(2**63)))
        first = pick((0, 1, below(100), below(TOP - count), TOP - count))
        yield *g, first, count, lanes, below(lanes)


def equal_lanes():
    """Numbers that stay, that come in turn, and that come to rest: some lanes of each are the same run."""
    for g, lanes in (((64, 1, 0, 9), 3), ((4, 15, 0, 1), 4), ((4, 0, 9, 4), 4), ((64, 2**32, 5, 9), 5)):
        parted = [(*g, 0, 20 * lanes, lanes, lane) for lane in range(lanes)]
        assert len({ref.lane(*numbers) for numbers in parted}) < lanes
        yield from parted


def refused_lanes():
    """Lanes and a lane about what is accepted, by the run's count. At width 0 any lanes."""
    for count in (1, 15, 16, 17, TOP):
        for lanes in (0, 1, 2, 15, 16, 17, 18, TOP):
            for lane in sorted({0, max(lanes - 1, 0), lanes, min(lanes + 1, TOP), TOP}):
                yield 4, 5, 3, 1, 0, count, lanes, lane
    for lanes in range(18):
        yield *prime(1), 0, pick((16, TOP)), lanes, max(lanes - 1, 0)


def refused_runs_with_lanes():
    """For the width or an operand beside lanes that would be accepted or not, alone and with a refused count; for a run
    that goes too far."""
    for width in REFUSED_WIDTHS:
        yield width, 0, 0, 1, 0, 8, 1, 0
        yield width, TOP, TOP, TOP, TOP, 0, TOP, TOP
    wrong = [(*SHOWN_RUN[:at], 1024, *SHOWN_RUN[at + 1 : 4]) for at in (1, 2, 3)]
    for g, count, lanes in product((*wrong, prime(0), prime(PRIME)), (8, 0), (8, 9)):
        yield *g, 100, count, lanes, 7
    for first, count in ((TOP - 7, 8), (TOP, 1), (TOP, TOP), (1, TOP)):
        for g, lanes in product((SHOWN_RUN[:4], prime(1)), (1, 17)):
            yield *g, first, count, lanes, 0


def refusals_in_their_order():
    """A width, an operand, a first index, a lane and a buffer's length, each accepted and refused beside any others."""
    narrow, at_width_0 = product((10, 65), (371,), (995,), (73, 1024)), product((0,), (16807,), (0,), (1, 0))
    for g, first, lane, length in product((*narrow, *at_width_0), (100, TOP), (2, 3), (107, 11)):
        yield "J", (*g, first, 8, 3, lane)
        yield "T", (*g, first, 8, 3, lane, length)


def lengths_of_lanes(numbers):
    """None, one less than the lane's line takes, as much, one more, and many. A refused lane's are those of a line of
    zeros, and no line is shorter."""
    length = len(ref.line_of(ref.lane(*numbers)[1:]))
    return 0, length - 1, length, length + 1, 107


# The longest line of a lane, the shortest, one of document 01's run, and one more lane than it has positions.
LANES_TO_WRITE = (64, TOP, TOP, TOP, 0, TOP, 1, 0), (1, 0, 0, 0, 0, 2, 2, 1), (*SHOWN_RUN, 3, 1), (*SHOWN_RUN, 9, 1)


def plain_lanes():
    """At a narrow width, where larger numbers are refused; at width 64, where they are not."""
    for g in ((4, 5, 3, 1), (64, 1, 1, 0)):
        yield "J", (*g, 0, 16, 3, 1)
        yield "T", (*g, 0, 16, 3, 1, 120)


def lane_calls():
    """One lane of three is also written."""
    accepted = worked_lanes, lanes_of_counts, lanes_of_each_width, equal_lanes
    for part in (*accepted, refused_lanes, refused_runs_with_lanes):
        for numbers in part():
            yield "J", numbers
            if below(3) == 0:
                yield "T", (*numbers, pick(lengths_of_lanes(numbers)))
    yield from refusals_in_their_order()
    for numbers in LANES_TO_WRITE:
        yield "J", numbers
        yield from (("T", (*numbers, length)) for length in (*lengths_of_lanes(numbers), 256))
    yield from each_beyond(plain_lanes())


# For two runs. With an odd multiplier the places of a circle are numbered from the seed on.


def in_both_orders(pairs):
    for first, second in pairs:
        yield first, second
        yield second, first


def in_any_order(pairs):
    """Each pair in one order, by chance."""
    for first, second in pairs:
        yield pick(((first, second), (second, first)))


def run_from(g, first, place, count):
    """The run of the same rule over so many places of g's circle, from this one on, with this first index."""
    return *g[:3], ref.element(*g, (place - first) % period_of(g))[1], first, count


def run_at(g, place, count):
    """From g's seed on, from the place itself, from any seed, or at the far end of a sequence."""
    last = TOP - count
    return run_from(g, min(pick((place % period_of(g), 0, 1, below(2**63), last)), last), place, count)


def shortest_circles():
    """Of one place, two and four, with another circle beside the one: every two arcs of up to one place more than there
    are. The first begins at the seed, or at the place before it."""
    for width, increment, period in ((1, 0, 1), (1, 1, 2), (2, 1, 4)):
        counts = range(1, period + 2)
        for count, seed, other in product(counts, range(2**width), counts):
            yield (width, 1, increment, 0, pick((0, period - 1)), count), (width, 1, increment, seed, 0, other)


# A generator and a count, less than its period: full periods of 2^4, 2^35, 2^63 and 2^64, others, and width 0.
CIRCLES = (
    ((4, 5, 3, 1), 6),
    ((5, 3, 0, 1), 3),
    ((10, 371, 995, 73), 8),
    ((35, 129, 1, 0), 2**34 + 7),
    ((63, 5, 3, 1), 2**62),
    ((64, 3, 0, 1), 2**61 + 1),
    ((64, 1, 1, 0), 2**63 + 5),
    ((64, 5, 3, 1), TOP - 20),
    (prime(1), 10**9),
    (prime(PRIME - 7), 12),
)


def arcs_beside(period, count):
    """Beside the first so many places of a circle, as place and count: the same; next to them on either side; one place
    on them at either end; all others, with one more at either end, and at both; all places but their first, and but
    their last; within them; about them; the whole circle, and more than that."""
    left = period - count
    some, inside = 1 + below(left - 1), 1 + below(count - 2)
    yield from ((0, count), (count, some), (-some, some), (count - 1, some), (-some, some + 1))
    yield from ((count, left), (count, left + 1), (count - 1, left + 1), (count - 1, left + 2))
    yield from ((1, period - 1), (count, period - 1), (inside, count - inside), (-1, count + 2))
    yield from ((some, period), (-1, TOP))


def arcs_of_circles():
    """At both sides of where the places are numbered from, and across it."""
    for g, count in CIRCLES:
        period = period_of(g)
        for place, other in arcs_beside(period, count):
            start = pick((0, -count, -1 - below(count - 1), below(period)))
            if other <= TOP:
                yield run_at(g, start, count), run_at(g, start + place, other)


def counts_about_the_period():
    """For either run one less than the period, as many, one more, and all there are; near each other on the circle."""
    for g in (*PERIODS, (3, 5, 3, 1), (5, 21, 7, 0), (5, 3, 0, 2), prime(2)):
        period = period_of(g)
        counts = sorted(count for count in {period - 1, period, period + 1, TOP - 1, TOP} if 1 <= count <= TOP)
        for count in counts:
            place = pick((0, 1, -1, below(period)))
            yield (*g, min(below(2), TOP - count), count), run_at(g, place, pick(counts))


# Width, multiplier and increment, and seeds of which no two are on one cycle.
CYCLES = (
    ((64, 3, 0), (1, 5, 2, 0)),
    ((64, 1, 2), (5, 4)),
    ((64, 1, 2**33), (5, 2**32 + 5)),
    ((64, TOP, 7), (3, 2, 2**63 + 3)),
    ((64, 1, 0), (9, 8, 2**63 + 9)),
    ((63, 5, 0), (1, 3, 2**62 + 2)),
    ((40, 2**40 - 1, 0), (1, 2)),
    ((10, 371, 995), (73, 75)),
)


def other_cycles():
    """Any two seeds of narrow rules, with all of their cycles; those above, with one number of the second and all."""
    for rule in ((3, 5, 0), (3, 3, 2)):
        for seed, other in combinations(range(8), 2):
            yield (*rule, seed, below(3), 8), (*rule, other, pick((0, TOP - 8)), 8)
    for rule, seeds in CYCLES:
        for seed, other in combinations(seeds, 2):
            for count in (1, TOP):
                yield (*rule, seed, 0, TOP), (*rule, other, TOP - count, count)


def pairs_of_each_width():
    """Of a few places, of any number, or of all; the first at the far end of its sequence, at width 0 the second too,
    since its period is no divisor of 2^64. Now and then another seed, which may be on another cycle."""
    odd = [g for g in generators() if g[1] % 2 == 1]
    for g in (*(pick([g for g in odd if g[0] == width]) for width in range(1, 65)), *prime_generators(4)):
        period = period_of(g)
        sizes = [pick((1 + below(20), 1 + below(period), 1 + below(period), period)) for _ in range(2)]
        count, other = (min(size, TOP) for size in sizes)
        second = run_at(g, below(period), other)
        if g[0] == 0:
            second = run_from(g, TOP - other, below(period), other)
        elif below(4) == 0:
            second = *second[:3], a_seed(g[0]), *second[4:]
        yield run_from(g, TOP - count, pick((0, 1, below(period))), count), second


def refused_pairs():
    """Any two of the player's runs, of which one is accepted. In one order a width or an operand that is refused, at
    width 0 too; in both a count of 0 or a run that goes too far, beside a run of the same rule and of another."""
    yield from product(HELD_RUNS, repeat=2)
    wide = [((width, TOP, TOP, TOP, TOP, 0), (4, 5, 3, 1, 0, 0)) for width in REFUSED_WIDTHS]
    large = [((4, *(16 if at == place else 1 for at in (1, 2, 3)), 0, 1), (4, 1, 1, 1, 0, 1)) for place in (1, 2, 3)]
    on_prime = [((0, *operands, 0, 8), (*prime(1), 0, 8)) for operands in PRIME_OPERANDS]
    yield from in_any_order((*wide, *large, *on_prime))
    for (first, count), g in product(((0, 0), (TOP, 1), (1, TOP)), (prime(1), (4, 6, 3, 1))):
        yield from in_both_orders(((*g, first, count), other) for other in ((*g, 0, 16), SHOWN_RUN))


def unlike_pairs():
    """Accepted runs that differ in one number of six, or in several; of even multiplier, the same and different; width
    0 beside others with its operands."""
    for place, number in ((0, 11), (0, 42), (0, 64), (1, 373), (1, 883), (1, 370), (1, 1), (2, 994), (2, 483), (2, 0)):
        yield SHOWN_RUN, (*SHOWN_RUN[:place], number, *SHOWN_RUN[place + 1 :])
    for place, number in ((3, 72), (3, 585), (4, 99), (4, 0), (5, 9), (5, 1), (5, TOP - 100)):
        yield SHOWN_RUN, (*SHOWN_RUN[:place], number, *SHOWN_RUN[place + 1 :])
    yield SHOWN_RUN, (11, 373, 994, 74, 99, 9)
    for g in (*EVEN, (64, 0, 9, 4), (10, 370, 995, 73)):
        run = *g, 100, 8
        yield run, run
        yield run, (*g[:3], 0, 3, 99)
        yield run, (*g[:2], g[2] ^ 1, g[3], 100, 8)
        yield run, (g[0], g[1] ^ 1, *g[2:], 100, 8)
    for width in (15, 31, 32, 64):
        yield (*prime(1), 0, 8), (width, 16807, 0, 1, 0, 8)
    yield (*prime(1), 0, 8), SHOWN_RUN


def plain_pairs():
    """At width 64, where larger numbers are accepted, with either run longer."""
    short, long = (64, 5, 3, 1, 0, 100), (64, 5, 3, 1, 0, 2**62)
    yield "H", (*short, *long)
    yield "H", (*long, *short)


def shared_calls():
    for part in (arcs_of_circles, unlike_pairs):
        yield from (("H", (*first, *second)) for first, second in in_both_orders(part()))
    for part in (counts_about_the_period, other_cycles, pairs_of_each_width):
        yield from (("H", (*first, *second)) for first, second in in_any_order(part()))
    for part in (shortest_circles, refused_pairs):
        yield from (("H", (*first, *second)) for first, second in part())
    yield from each_beyond(plain_pairs())


def all_calls():
    refused = refused_generators, refused_runs, one_way, refused_archives
    accepted = long_sequences, wide_calls, printed_tables, valid_calls, reading_calls, archive_calls, remaking_calls
    later = gap_calls, places_calls, variety_calls, prime_calls, summary_calls, twin_calls, numbers_beyond, player_calls
    parts = bounds, *refused, *accepted, *later, fix_calls, lane_calls, shared_calls
    return dict.fromkeys((code, tuple(args)) for part in parts for code, args in part())


# Their text.


def numbers_of(args):
    for arg in args:
        if isinstance(arg, bytes):
            yield len(arg)
            yield from arg
        else:
            yield arg


def joined(*parts):
    return ",".join(map(str, parts))


def main(folder):
    calls, replies = [], []
    for code, args in all_calls():
        numbers = list(numbers_of(args))
        assert len(numbers) <= 250 and all(0 <= number <= TOP for number in numbers)
        calls.append(joined(code, *numbers))
        replies.append(joined(*REPLY[code](*args)))
    for name, lines in (("stdin", calls), ("stdout", replies)):
        (folder / name).write_text("".join(f"{line}\n" for line in lines))
    print(f"{len(calls)} calls")


if __name__ == "__main__":
    main(Path(sys.argv[1]) if len(sys.argv) > 1 else Path(__file__).resolve().parents[2] / "crates/vectors")
