"""Always the same work, by which tests/pages/gate_times.py knows how fast the machine was in a run of the gate, which does it near its start
and at its end: texts are sorted, and looked up in an order that reads memory here and there, as proofs do. One case, that it was done.
"""
import sys

from measuring import tell

COUNT, TIMES = 600_000, 3
# A prime that does not divide the count, so that each text comes once, far from those that are next to it in order.
STEP = 7_368_787


def texts():
    return ["%08x" % (number * STEP % COUNT) for number in range(COUNT)]


def found():
    """How many texts were found at their places, each as often as the work is done."""
    count = 0
    for _ in range(TIMES):
        places = {text: place for place, text in enumerate(sorted(texts()))}
        count += sum(places[text] == int(text, 16) for text in texts())
    return count


if __name__ == "__main__":
    sys.exit(tell([("the work is done", "" if found() == COUNT * TIMES else "not all texts were found")]))
