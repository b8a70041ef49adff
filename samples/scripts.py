#!/usr/bin/env python3
"""Writes sample scripts for `replay`.

samples/scripts.py life | target/bin/replay    one script: the life of document 01's frame
samples/scripts.py | target/bin/replay         document 01's examples of the store, each refusal of the store that slices long enough
                                               leave, every call, and input that is not well formed
"""
import struct
import sys

A, B, C = b"\x01" * 20, b"\x02" * 20, b"\x03" * 20
F, G, H = b"\x11" * 32, b"\x22" * 32, b"\x33" * 32
Z, TAKER = b"\x55" * 32, b"\x66" * 32


def u64(*numbers):
    return b"".join(struct.pack("<Q", n) for n in numbers)


def numbers(list_):
    return struct.pack("<H", len(list_)) + u64(*list_)


def octets(b):
    return struct.pack("<H", len(b)) + b


def push(hash_=F, sender=A, expected=5, claim=8, chain=1, gas=21000, ticket=7):
    return b"CP" + hash_ + sender + u64(expected, claim, chain, gas, ticket)


def poll(head, known=(), content=None, sender=A, mark=b"CQ"):
    tail = b"\0" if content is None else b"\1" + numbers([n for n, _ in content]) + octets(b"".join(h for _, h in content))
    return mark + sender + u64(head) + numbers(list(known)) + tail


def poll_short(head, known=(), content=None, sender=A):
    return poll(head, known, content, sender, b"CM")


def sweep_lists(senders, heads, counts, nonces):
    return b"CW" + octets(senders) + numbers(heads) + numbers(counts) + numbers(nonces)


def sweep(*polls):
    """A sweep of these polls: sender, head and known nonces of each."""
    senders, heads, known = b"".join(s for s, _, _ in polls), [h for _, h, _ in polls], [list(k) for _, _, k in polls]
    return sweep_lists(senders, heads, [len(k) for k in known], [n for k in known for n in k])


def repark(preds, contents, boundary=5, hash_=F):
    return b"CG\1" + hash_ + numbers(preds) + octets(contents) + u64(boundary)


def unhydratable(preds, contents, hash_=F):
    return b"CG\2" + hash_ + numbers(preds) + octets(contents)


def enter(kind, block, block_hash=H, taker=TAKER, hash_=F):
    return b"CE" + hash_ + bytes([kind]) + u64(block) + block_hash + (taker if kind == 3 else b"")


def reorg(block, block_hash=None):
    return b"CR" + u64(block) + (b"\0" if block_hash is None else b"\1" + block_hash)


def final(block):
    return b"CF" + u64(block)


def evict(sender=A):
    return b"CV" + sender


def state(hash_=F):
    return b"CS" + hash_


def boundary(hash_=F):
    return b"CB" + hash_


def pool_gap(head, count, sender=A):
    return b"CK" + sender + u64(head, count)


def has_guard(sender=A):
    return b"CH" + sender


BLOCKS, LEN, SENDERS, TENTATIVE, DUMP = b"CT", b"CL", b"CN", b"CC", b"CD"
LAST = 2**64 - 1


def numbered(n):
    return bytes([n]) * 32


# The frame waits, is consumed, mined in block 100, revived, consumed again, taken in block 101, and dead. The frozen scripts of
# the tests begin with this one.
LIFE = [
    push(),
    poll(5, (5, 7)),
    poll(9),
    enter(1, 100),
    poll(9),
    reorg(100, Z),
    state(),
    poll(9),
    enter(3, 101, Z),
    final(100),
    final(101),
    LEN,
]

# refusal 1 and the largest claims
LARGEST = [push(expected=LAST - 16, claim=LAST), push(expected=LAST - 17, claim=LAST), LEN]

EXAMPLES = [
    # the starred examples of the store, in document 01's order
    [push(), poll(5, (5, 6, 7)), DUMP],
    [push(), poll(5, (5, 7)), DUMP],
    [push(), poll(8), DUMP],
    [push(), poll(9), DUMP],
    [push(), repark([7], H), poll(7, (7,), [(7, H)]), DUMP],
    [push(), repark([7], H), poll(7, (7,)), DUMP],
    [push(), repark([], H), poll(8, (), [(4, Z)]), DUMP],
    [push(chain=0, gas=0), poll(5), poll(5), poll(4), DUMP],
    [push(expected=9, claim=8), poll(8)],
    [push(), enter(1, 100), final(99), LEN, final(100), LEN],
    [push(), enter(1, 100), reorg(100, H), state(), reorg(100), state()],
    LARGEST,
]

REFUSALS = [
    # 2: a 65th frame
    [push(ticket=n) for n in range(65)],
    # 3: 257 known nonces, and 256
    [push(), poll(5, range(257)), poll_short(5, range(257)), poll(5, range(256))],
    # 4: 65 pairs; a hash too short; 64 pairs
    [
        push(),
        poll(5, (), [(n, H) for n in range(65)]),
        poll(5, (), [(5, H), (6, H[1:])]),
        poll_short(5, (), [(5, H), (6, H[1:])]),
        poll(5, (), [(n, H) for n in range(64)]),
    ],
    # 6 and 7: 17 predecessors; 33 bytes; 17 hashes; 16 of each
    [repark(list(range(17)), H), repark([5], H + b"\1"), repark([5], H * 17), repark(list(range(16)), H * 16), DUMP],
    # 8: a 65th guard; a guard of a hash that has one
    [repark([5], H, hash_=numbered(n)) for n in range(65)] + [repark([6], H, hash_=numbered(7))],
]

SWEEP_REFUSALS = [
    # 17: 65 senders; a sender too short; a head without a count; 64 senders
    [
        push(),
        sweep(*[(A, 9, ())] * 65),
        sweep_lists(A[1:], [9], [0], []),
        sweep_lists(A + B, [9, 9], [0], []),
        sweep((A, 9, ()), *[(B, 9, ())] * 63),
    ],
    # 18: a nonce too many; one too few; counts that sum to 2^64 + 1; 3: 257 nonces for one sender, and 256
    [
        push(),
        sweep_lists(A, [9], [1], [5, 6]),
        sweep_lists(A, [9], [1], []),
        sweep_lists(A + B, [9, 9], [LAST, 2], [5]),
        sweep((A, 9, range(257))),
        sweep((A, 9, range(256))),
    ],
]

CALLS = [
    # walk order, and every call that only reads
    [
        push(G, B, 5, 8, 1, 21000, 1),
        push(F, A, 5, 7, 1, 21000, 2),
        push(H, B, 4, 6, 1, 21000, 3),
        push(Z, C, 1, 3, 0, 0, 4),
        SENDERS,
        LEN,
        pool_gap(0, LAST, B),
        pool_gap(5, 7, B),
        pool_gap(0, LAST, C),
        boundary(H),
        boundary(numbered(1)),
        enter(1, 12, numbered(1), hash_=G),
        enter(2, 10, numbered(2), hash_=F),
        enter(3, 12, numbered(3), Z, hash_=H),
        enter(1, 12, numbered(1), hash_=G),
        enter(1, 12, numbered(1), hash_=numbered(1)),
        BLOCKS,
        TENTATIVE,
        state(G),
        state(H),
        state(Z),
        state(numbered(1)),
        pool_gap(0, LAST, B),
        DUMP,
        final(11),
        final(12),
        DUMP,
    ],
    # a guard goes with its frame's rescue, its entering, its revival, its finality and its eviction; a frame pushed twice
    [push(), repark([5, 6, 7], H), has_guard(), poll(5, (5, 6, 7)), has_guard(), DUMP],
    [push(), unhydratable([7], H), poll(7, (7,), [(7, Z), (7, H)]), DUMP],
    [push(), unhydratable([7], H), enter(2, 100), repark([7], H), reorg(100, Z), DUMP],
    [push(), enter(1, 100), repark([7], H), has_guard(), final(100), DUMP],
    [push(), push(ticket=4), repark([7], H), evict(), evict(), DUMP],
    [push(), push(claim=7, ticket=4), repark([5, 6], H), poll(5, (5, 6, 7), [(5, H)]), DUMP],
    # short rows beside long ones: waiting, consumed, guarded and rescued
    [
        push(),
        poll(5, (5, 7)),
        poll_short(5, (5, 7)),
        poll_short(9),
        repark([7], H),
        poll_short(7, (7,), [(7, H)]),
        poll_short(5, (5, 6, 7)),
        DUMP,
    ],
    # two senders in one sweep; one sender twice; one without a frame, and none
    [
        push(),
        push(G, B, ticket=8),
        sweep((A, 5, (5, 7)), (B, 5, (5, 6, 7))),
        sweep((A, 9, ()), (A, 8, ())),
        sweep((C, 5, ())),
        sweep(),
        DUMP,
    ],
    # a held head survives a revival
    [push(chain=0, gas=0), poll(5), enter(1, 100), poll(6), reorg(100), poll(5), poll(6)],
]

BAD = [
    [b"CX"],
    [push(), b"DP"],
    [push(), poll(5)[:-1]],
    [push(), sweep((A, 5, (5,)))[:-1]],
    [b"CG\3" + F],
    [enter(1, 100)[:-1]],
    [b"CR" + u64(1) + b"\2"],
    [],
]


def write(script):
    body = b"".join(script)
    sys.stdout.buffer.write(struct.pack("<I", len(body)) + body)


def main():
    if sys.argv[1:] == ["life"]:
        return write(LIFE)
    if sys.argv[1:]:
        sys.exit(__doc__)
    for script in EXAMPLES + REFUSALS + SWEEP_REFUSALS + CALLS + BAD:
        write(script)
    # input that breaks off in a script's length
    sys.stdout.buffer.write(b"\1\0")


if __name__ == "__main__":
    main()
