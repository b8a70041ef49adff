#!/usr/bin/env python3
"""Writes a sample trace for `trace`: `samples/traces.py [NAME] | target/bin/trace`.

life    the life of document 01's frame: the calls of `samples/scripts.py life` but for those that only read
cut     `life`, cut short in its last call
full    6,553 calls of 65,536 bytes together, which is as many calls and as many bytes as a trace may have
polls   64 frames of one sender, and 1,803 polls of it, at which they wait: the longest trace of these
totals  four frames, of which one is rescued, one is dead, one is evicted and one is still held
(none)  every refusal that a trace can meet
"""
import sys

# no folder of compiled modules is left beside the samples
sys.dont_write_bytecode = True
from scripts import LARGEST, LIFE, REFUSALS, B, C, G, H, Z, enter, evict, final, poll, push, reorg  # noqa: E402

MARKS = (b"CP", b"CQ", b"CG", b"CE", b"CR", b"CF", b"CV")


def traced(script):
    """The calls of a script that a trace may have."""
    return [call for call in script if call.startswith(MARKS)]


# The frozen trace of the tests begins with this one.
TRACE_OF_LIFE = b"".join(traced(LIFE))

# 1, 2, 3, 4, 6, 7 and 8, and a call that is cut short. The sender is evicted behind each script, so that the next one finds no frame.
TRACE_OF_REFUSALS = b"".join(b"".join(traced(script)) + evict() for script in [LARGEST] + REFUSALS) + push()[:-1]

# F is rescued, G is dead, the frame of B is evicted, and that of C is held: `accepted 4 held 1 rescued 1 dead 1 evicted 1`.
TRACE_OF_TOTALS = b"".join(
    [push(), poll(8), push(G), enter(1, 100, hash_=G), final(100), push(H, B), evict(B), push(Z, C)]
)

TRACES = {
    (): TRACE_OF_REFUSALS,
    ("life",): TRACE_OF_LIFE,
    ("cut",): TRACE_OF_LIFE[:-1],
    ("full",): final(0) * 6547 + reorg(0) * 6,
    ("polls",): b"".join(push(bytes([k]) * 32, ticket=k) for k in range(64)) + poll(5) * 1803,
    ("totals",): TRACE_OF_TOTALS,
}


def main():
    trace = TRACES.get(tuple(sys.argv[1:]))
    if trace is None:
        sys.exit(__doc__)
    sys.stdout.buffer.write(trace)


if __name__ == "__main__":
    main()
