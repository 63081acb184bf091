"""What tools/compare-capture and tools/draw have in common: captures as the program `capture` reads them, and one laid over another."""

import collections
import functools
import itertools
import os
import shlex
import subprocess

BESIDE = os.path.dirname(os.path.abspath(__file__))
SIGNALS = {"cycle": 7, "raster": 9, "ba": 1, "aec": 1, "dma": 8, "rc": 3, "vc": 10, "irq": 1}
REFUSALS = {
    14: "not a dump, or a signal of the wrong width",
    15: "more than 64 signals",
    16: "time goes back",
    17: "no room for an identifier or a time",
}
# A dump may say two times that are far apart, with a tick for each unit between: no more of them are kept, and no more passed over.
MOST_TICKS = 1_000_000
MOST_PASSED = 20_000_000
AGREE, DIFFER, UNKNOWN = range(3)


class Fault(Exception):
    """Something wrong with the input, in words for its owner."""


class Capture:
    """Of each signal its values, as the program writes them, from a first time on."""

    def __init__(self, name):
        self.name = name
        self.signals = None
        self.first = 0
        self.values = {signal: [] for signal in SIGNALS}
        self.refused = None

    def __len__(self):
        return len(self.values["cycle"])

    def at(self, time, signal):
        """A value, or None where there is no tick of that time."""
        place = time - self.first
        return self.values[signal][place] if 0 <= place < len(self) else None


# ---- reading


def refused_words(capture):
    number, place = capture.refused
    return f"{capture.name}: refused {number} at byte {place:,}: {REFUSALS.get(number, 'unknown to this tool')}"


def read(name, program, source, wanted=None):
    """What the program `capture` answers of an open dump; of the times that are wanted alone, where they are said. And whether that is all."""
    words = shlex.split(program) if program else [os.path.join(BESIDE, "capture")]
    try:
        running = subprocess.Popen(words, stdin=source, stdout=subprocess.PIPE)
    except (OSError, ValueError) as error:
        raise Fault(f"{words[0]}: {getattr(error, 'strerror', None) or error}") from None
    try:
        capture, whole = answered(name, running.stdout, wanted)
        status = running.wait() if whole else 0
    finally:
        # where enough was read there may be 2^63 ticks to come
        running.kill()
        running.stdout.close()
        running.wait()
    if capture.signals is None and capture.refused is None:
        raise Fault(f"{words[0]}: exit status {status} and no answer of {name}")
    if status:
        raise Fault(f"{words[0]}: exit status {status} in the middle of {name}")
    return capture, whole


def answered(name, lines, wanted):
    """The program's text as a capture, and whether it is all of it."""
    capture, passed = Capture(name), 0
    columns = list(capture.values.values())
    for place, line in enumerate(lines, 1):
        words = line.decode("latin-1").split()
        try:
            if capture.refused:
                raise ValueError
            if len(words) == 1 + len(SIGNALS) and capture.signals is not None:
                time = int(words[0])
                if wanted is not None and time >= wanted.stop:
                    return capture, False
                if wanted is not None and time < wanted.start:
                    passed += 1
                    if passed > MOST_PASSED:
                        raise Fault(f"{name}: time {wanted.start:,} is more than {MOST_PASSED:,} ticks after the first")
                    continue
                if not len(capture):
                    capture.first = time
                elif time != capture.first + len(capture):
                    raise ValueError
                if len(capture) == MOST_TICKS:
                    raise Fault(f"{name}: more than {MOST_TICKS:,} ticks, a tick for each unit of time; --from T says where the run begins")
                for column, word in zip(columns, words[1:]):
                    column.append(word)
            elif len(words) == 2 and words[0] == "signals" and place == 1:
                capture.signals = int(words[1])
            elif len(words) == 3 and words[0] == "refused":
                capture.refused = int(words[1]), int(words[2])
            else:
                raise ValueError
        except ValueError:
            raise Fault(f"answer of {name}:{place}: neither `signals K`, nor `refused R P`, nor the nine words of a tick") from None
    return capture, True


# ---- comparing


@functools.lru_cache(maxsize=None)
def digits(word, width):
    """A value as it is written: its number, and which of its digits are known. Both are 0 in the others."""
    if "x" not in word:
        return int(word), (1 << width) - 1
    return int(word.replace("x", "0"), 2), int(word.replace("0", "1").replace("x", "0"), 2)


@functools.lru_cache(maxsize=None)
def judged(ours, theirs, width):
    """Two values: they differ where a digit that both have differs, and agree where all are known and the same."""
    if ours is None or theirs is None:
        return UNKNOWN
    (one, of_one), (two, of_two) = digits(ours, width), digits(theirs, width)
    both = of_one & of_two
    if (one ^ two) & both:
        return DIFFER
    return AGREE if both == (1 << width) - 1 else UNKNOWN


def planes(words, width):
    """The values of a signal as numbers with a bit for each tick: of each of its digits the ones, and those that are known."""
    pairs = {word: digits(word, width) for word in set(words)}

    def packed(which, digit):
        bits = {word: "01"[pair[which] >> digit & 1] for word, pair in pairs.items()}
        return int("".join(map(bits.__getitem__, words))[::-1] or "0", 2)

    return [[packed(which, digit) for digit in range(width)] for which in (0, 1)]


class Slices:
    """A number from which the bits from a place on are taken quickly, by bytes; the places may lie before it or go beyond it."""

    def __init__(self, number, size, before):
        self.before = before
        self.parts = [((number << before) >> by).to_bytes((before + size) // 8 + 1, "little") for by in range(8)]

    def at(self, place, size):
        place += self.before
        first = place >> 3
        return int.from_bytes(self.parts[place & 7][first : first + (size + 7) // 8], "little")


# So many ticks are compared first, then twice as many at a time, and a place is left where it can no longer be the best.
BLOCK = 256


def blocks(size):
    first, block = 0, BLOCK
    while first < size:
        yield range(first, min(first + block, size))
        first, block = first + block, 2 * block


class Scores:
    """How well the ticks of a long capture agree with those of a short one that is laid over it: values that agree, less those that differ."""

    def __init__(self, long, short):
        self.size = len(short)
        known = [signal for signal in SIGNALS if any(set(word) != {"x"} for word in set(short.values[signal])) and any(set(word) != {"x"} for word in set(long.values[signal]))]
        # the widest first: they rule out most
        known.sort(key=lambda signal: -SIGNALS[signal])
        pairs = [(planes(long.values[signal], SIGNALS[signal]), planes(short.values[signal], SIGNALS[signal])) for signal in known]
        self.long = [[[Slices(number, len(long), self.size) for number in numbers] for numbers in one] for one, _ in pairs]
        self.blocks = list(blocks(self.size))
        self.short = [[[[number >> block.start & (1 << len(block)) - 1 for number in numbers] for numbers in two] for _, two in pairs] for block in self.blocks]
        # of each block and signal how many values are known, and of all that follow
        self.most = [[bin(functools.reduce(int.__and__, two[1])).count("1") for two in block] for block in self.short]
        self.rest = list(itertools.accumulate(map(sum, reversed(self.most))))[::-1] + [0]

    def block(self, nth, place, least):
        """The score of a block at a place of the short one's first tick in the long one; None where it is below the least."""
        start, size = place + self.blocks[nth].start, len(self.blocks[nth])
        score, left = 0, sum(self.most[nth])
        for one, two, most in zip(self.long, self.short[nth], self.most[nth]):
            differ, full = 0, -1
            for ones, known, our_ones, our_known in zip(one[0], one[1], two[0], two[1]):
                both = known.at(start, size) & our_known
                full &= both
                differ |= (ones.at(start, size) ^ our_ones) & both
            parts = bin(differ).count("1")
            score += bin(full & ~differ).count("1") - parts
            left -= most
            if score + left < least:
                return None
        return score

    def at(self, place, least):
        """The score of a place, or None where it is below the least."""
        score = 0
        for nth in range(len(self.blocks)):
            found = self.block(nth, place, least - score - self.rest[nth + 1])
            if found is None:
                return None
            score += found
        return score


def best_place(long, short):
    """Where in the long one the short one begins: where most agrees. They share half of the short one's ticks at least."""
    shared = (len(short) + 1) // 2
    places = range(shared - len(short), len(long) - shared + 1)
    scores = Scores(long, short)
    none = -len(SIGNALS) * len(short)
    # The places that one block alone would choose are likely; what the best of them has, no other may miss. A good one is enough.
    least = none
    for nth in dict.fromkeys((0, len(scores.blocks) - 1, len(scores.blocks) // 2)):
        if least > 0.9 * scores.rest[0]:
            break
        likeliest, found = None, none
        for place in places:
            score = scores.block(nth, place, found + 1)
            if score is not None:
                likeliest, found = place, score
        if likeliest is not None:
            least = max(least, scores.at(likeliest, none))
    best = None
    for place in places:
        score = scores.at(place, least if best is None else least + 1)
        if score is not None:
            best, least = place, score
    return best


Difference = collections.namedtuple("Difference", "tick time cycle raster signal ours theirs")


def difference_words(difference):
    return (
        f"line {difference.raster}, cycle {difference.cycle}: {difference.signal} is {difference.ours} in ours and {difference.theirs} in the capture; "
        f"tick {difference.tick} of the run, time {difference.time} of the capture"
    )


class Match:
    """A capture laid over a run: the run's first tick is the capture's time `start`."""

    def __init__(self, ours, theirs, given=None):
        if not len(ours):
            raise Fault(f"{ours.name}: a run without a tick")
        if not len(theirs):
            where = "" if given is None else f" from time {given} on that the run has"
            raise Fault(refused_words(theirs) if theirs.refused else f"{theirs.name}: no tick{where}")
        self.ours, self.theirs, self.found = ours, theirs, given is None
        if self.found and len(ours) <= len(theirs):
            given = theirs.first + best_place(theirs, ours)
        elif self.found:
            given = theirs.first - best_place(ours, theirs)
        self.start = given
        first, last = max(theirs.first, given), min(theirs.first + len(theirs), given + len(ours))
        # the run's ticks that the capture has, counted from 0
        self.shared = range(first - given, max(first, last) - given)
        if not self.shared:
            raise Fault(f"{theirs.name}: no tick from time {given} on that the run has")

    def pair(self, tick, signal):
        """Our value and the capture's of a tick of the run, and how they stand; UNKNOWN where the capture has no such tick."""
        one, two = self.ours.values[signal][tick], self.theirs.at(self.start + tick, signal)
        return one, two, judged(one, two, SIGNALS[signal])

    def counts(self, signal):
        """Of the shared ticks how many agree, differ and are unknown."""
        counts = collections.Counter(self.pair(tick, signal)[2] for tick in self.shared)
        return [counts[which] for which in (AGREE, DIFFER, UNKNOWN)]

    def first_difference(self, signals=tuple(SIGNALS)):
        """The earliest tick in which they part, and of that the first signal."""
        for tick in self.shared:
            for signal in signals:
                ours, theirs, found = self.pair(tick, signal)
                if found == DIFFER:
                    cycle, raster = (self.ours.values[name][tick] for name in ("cycle", "raster"))
                    return Difference(tick, self.start + tick, cycle, raster, signal, ours, theirs)
        return None

    def start_words(self):
        return f"the run's first tick is time {self.start} of the capture, {'the best match' if self.found else 'as --from says'}"
