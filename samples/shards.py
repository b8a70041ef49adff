#!/usr/bin/env python3
"""How many shards: the chance that a shard has no room.

samples/shards.py             two tables: the chance that one of n shards gets more than 64 frames, and the fewest shards for
                              which that chance is below one in a million
samples/shards.py simulate    the first table beside a simulation with a fixed seed, after small cases that are counted out;
                              the status is 1 if something disagrees

At one moment there are S senders, each with so many frames. Each sender is placed on one of n shards, all equally likely,
whatever the others do, and all its frames are there. What is computed is the chance that any shard gets more than 64 frames. It
is no estimate and no bound: it is a sum of positive numbers, exact but for rounding and for tails left out that are too thin to
show, to twelve digits.
"""
import functools
import itertools
import math
import operator
import random
import sys
from collections import Counter
from fractions import Fraction

ROOM = 64
FRAMES = (100, 500, 1000, 5000, 10000)
# frames that a shard has on average, and so how many shards there are
LOADS = (40, 32, 24, 16, 8)
# frames of each sender; "mixed": 1 frame with chance 1/2, 2 with 1/4, 3 with 1/8 and so on, 2 on average
KINDS = (1, 2, 4, 8, "mixed")
WANTED = 1e-6
SEED = 20270808
# a simulation is too far off if chance makes it so this seldom: 4 standard deviations
FAR = 3.2e-5


def senders_of(frames, kind):
    """Whole senders; 100 frames are those of 12 senders with 8 each."""
    return frames // (2 if kind == "mixed" else kind)


@functools.cache
def over(kind, senders, room=ROOM):
    """The chance that so many senders have more frames than there is room for."""
    if kind == "mixed":
        # they have: among the first `room` throws of a coin there are fewer heads than senders
        return sum(math.comb(room, heads) for heads in range(min(senders, room + 1))) / 2**room
    return 1.0 if senders * kind > room else 0.0


# ---- the chance

def times(left, right, low, high):
    """The product of two series, from power `low` to `high`. A series is its first power and its coefficients."""
    (start, a), (begin, b) = left, right
    b = b[::-1]
    product = []
    for power in range(low, high + 1):
        # a[i] meets the coefficient of b that is left for it
        shift = len(b) - 1 - (power - start - begin)
        i, j = max(0, -shift), max(0, shift)
        product.append(sum(map(operator.mul, a[i:], b[j:])))
    return low, product


def plus(left, right):
    """The sum of two series with the same powers."""
    return left[0], list(map(operator.add, left[1], right[1]))


def chance(senders, shards, over):
    """The chance that of so many senders on so many shards some shard gets too many, where `over(j)` is that of j senders.

    Let each shard have senders by a Poisson law, apart from the others. Given that they are S in all, they lie as S senders
    placed one by one do. `fits` has the chances that the first k shards have so many senders and all have room, `fails` that
    one has not.
    """
    if shards == 1:
        return over(senders)
    mean = senders / shards
    # what lies further off than this adds nothing that shows
    wide = 10 * math.sqrt(mean) + 2 * ROOM

    def window(count):
        if count == shards:
            return senders, senders
        middle, side = count * mean, 8 * math.sqrt(count * mean) + wide
        return max(0, int(middle - side)), min(senders, int(middle + side))

    def join(one, other):
        (count, fits, fails), (more, fit, fail) = one, other
        low, high = window(count + more)
        both = times(fits, fit, low, high)
        return count + more, both, plus(times(fails, plus(fit, fail), low, high), times(fits, fail, low, high))

    low, high = window(1)
    poisson = [math.exp(j * math.log(mean) - mean - math.lgamma(j + 1)) for j in range(low, high + 1)]
    fails = [p * over(j) for j, p in enumerate(poisson, low)]
    fits = [p * (1 - over(j)) for j, p in enumerate(poisson, low)]
    shard = 1, (low, fits), (low, fails)
    so_far = shard
    for bit in bin(shards)[3:]:
        so_far = join(so_far, so_far)
        if bit == "1":
            so_far = join(so_far, shard)
    _, (_, (fits,)), (_, (fails,)) = so_far
    return fails / (fits + fails)


def overflow(frames, kind, shards):
    return chance(senders_of(frames, kind), shards, lambda senders: over(kind, senders))


def fewest(frames, kind):
    """The fewest shards for which the chance is below what is wanted. Of more shards each has less to hold."""
    none = frames // ROOM
    enough = none + 1
    while overflow(frames, kind, enough) >= WANTED:
        none, enough = enough, 2 * enough
    while enough - none > 1:
        middle = (none + enough) // 2
        if overflow(frames, kind, middle) < WANTED:
            enough = middle
        else:
            none = middle
    return enough


# ---- small cases

def counted(senders, shards, over):
    """The same chance, by counting out where each sender may lie."""
    fit = [1 - Fraction(over(j)) for j in range(senders + 1)]

    def fits(places):
        return math.prod(fit[places.count(shard)] for shard in range(shards))

    ways = itertools.product(range(shards), repeat=senders)
    return 1 - sum(fits(places) for places in ways) / shards**senders


def in_fractions(senders, shards, most):
    """The same chance for shards that take at most so many senders, in fractions: of x^S in the power of the sum of x^j / j!."""
    term = [Fraction(1, math.factorial(j)) for j in range(most + 1)]
    series = [Fraction(1)]
    for _ in range(shards):
        length = min(len(series) + most, senders + 1)
        series = [sum(series[i - j] * term[j] for j in range(most + 1) if 0 <= i - j < len(series)) for i in range(length)]
    coefficient = series[senders] if senders < len(series) else 0
    return 1 - coefficient * math.factorial(senders) / Fraction(shards) ** senders


def frames_over(senders, room):
    """The chance that so many mixed senders have more frames than there is room for, added up frame by frame."""
    chances = {0: Fraction(1)}
    for _ in range(senders):
        after = Counter()
        for held, chance_ in chances.items():
            for more in range(1, room - held + 1):
                after[held + more] += chance_ / 2**more
        chances = after
    return 1 - sum(chances.values())


def near(one, other):
    return abs(one - other) <= 1e-12 * other


def small_cases():
    """How many small cases there are, and how many of them disagree."""
    cases = []
    for senders, shards in itertools.product(range(1, 8), range(1, 5)):
        for kind, room in ((1, 1), (1, 2), (1, 3), (2, 5), ("mixed", 4), ("mixed", 9)):
            def small(j, kind=kind, room=room):
                return over(kind, j, room)
            cases.append((chance(senders, shards, small), float(counted(senders, shards, small))))
    # the last three are cells of the table
    for senders, shards, kind in ((40, 3, 4), (90, 4, 2), (100, 2, 1), (100, 5, 1), (62, 13, 8), (250, 32, 4)):
        exact = in_fractions(senders, shards, ROOM // kind)
        cases.append((chance(senders, shards, lambda j, kind=kind: over(kind, j)), float(exact)))
    for senders, room in itertools.product(range(1, 12), (3, 10, 30)):
        cases.append((over("mixed", senders, room), float(frames_over(senders, room))))
    return len(cases), sum(not near(one, other) for one, other in cases)


# ---- the simulation

def trial(rng, senders, kind, shards):
    """Whether a shard gets more frames than it has room for, in one throw."""
    held = Counter()
    places = rng.choices(range(shards), k=senders)
    if kind != "mixed":
        return max(Counter(places).values()) * kind > ROOM
    for place in places:
        held[place] += 1
        # heads: one frame more
        while rng.random() < 0.5:
            held[place] += 1
    return max(held.values()) > ROOM


def trials_of(frames):
    return max(1000, 2_000_000 // frames)


def far_off(seen, trials, computed):
    """Whether chance makes it seldom that so few of the trials overflow, or so many."""
    if computed in (0.0, 1.0):
        return seen != trials * computed

    def term(k):
        ways = math.lgamma(trials + 1) - math.lgamma(k + 1) - math.lgamma(trials - k + 1)
        return math.exp(ways + k * math.log(computed) + (trials - k) * math.log1p(-computed))

    at_most, at_least = sum(map(term, range(seen + 1))), sum(map(term, range(seen, trials + 1)))
    return min(at_most, at_least) < FAR


# ---- what is printed

def cells():
    """The rows of the first table: frames, shards, and of each kind the chance."""
    for frames, load in itertools.product(FRAMES, LOADS):
        shards = math.ceil(frames / load)
        yield frames, shards, [(kind, overflow(frames, kind, shards)) for kind in KINDS]


def shown(computed):
    if computed > 0.99:
        return "> 0.99"
    return "< 1e-12" if computed < 1e-12 else "%.2g" % computed


def heading(first, width):
    names = ["mixed" if kind == "mixed" else "%d each" % kind for kind in KINDS]
    print(first + "".join(name.rjust(width) for name in names))


def tables():
    print("The chance that some shard gets more than 64 frames. The frames are those of all senders at one moment; each sender")
    print("has 1, 2, 4 or 8 of them or, mixed, 1, 2, 3 or more with chances 1/2, 1/4, 1/8 and so on, which is 2 on average.")
    heading("frames shards a shard", 11)
    for frames, shards, row in cells():
        print("%6d %6d %7.1f" % (frames, shards, frames / shards) + "".join(shown(c).rjust(11) for _, c in row))
    print()
    print("The fewest shards for which that chance is below one in a million.")
    heading("frames", 11)
    for frames in FRAMES:
        print("%6d" % frames + "".join(("%d" % fewest(frames, kind)).rjust(11) for kind in KINDS))


def simulate():
    """Prints both; says whether all agree."""
    cases, differ = small_cases()
    print("small cases counted out, in fractions or frame by frame: %d, %d of them differ" % (cases, differ))
    print("The same chances, each with the part of so many trials in which a shard got more than 64 frames, seed %d." % SEED)
    print("(none): there was no such trial, and less than one was to be expected, so the chance is too small to be seen.")
    rng = random.Random(SEED)
    heading("frames shards trials", 20)
    far = compared = 0
    for frames, shards, row in cells():
        trials, line = trials_of(frames), ""
        for kind, computed in row:
            seen = sum(trial(rng, senders_of(frames, kind), kind, shards) for _ in range(trials))
            unseen = computed * trials < 1 and not seen
            off = far_off(seen, trials, computed)
            far, compared = far + off, compared + (not unseen)
            simulated = "(none)" if unseen else "%.4f" % (seen / trials)
            line += (shown(computed) + " " + simulated + ("!" if off else "")).rjust(20)
        print("%6d %6d %6d" % (frames, shards, trials) + line, flush=True)
    print("chances seen: %d; off by more than 4 standard deviations (!): %d" % (compared, far))
    return not differ and not far


def main():
    if sys.argv[1:] == ["simulate"]:
        sys.exit(0 if simulate() else 1)
    if sys.argv[1:]:
        sys.exit(__doc__)
    tables()


if __name__ == "__main__":
    main()
