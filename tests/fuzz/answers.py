"""Answers the fuzzer's questions by the reference program: what `check`, `canon` and `compare` say of two reports.

A question is four parts, each after its length in eight bytes: whether there is a preferred type, the type, and the two reports.
The answers are three texts, each after the exit status and its length. The text of `canon` is that of the C library: the
canonical form, or the lines of the fault.
"""
import pathlib
import struct
import sys
import traceback

sys.dont_write_bytecode = True
sys.path.insert(0, str(pathlib.Path(__file__).resolve().parents[2] / 'reference'))
import erd_reference  # noqa: E402

MISSING = 99


def lines(texts):
    return ''.join(text + '\n' for text in texts).encode()


def answers(prefer, left, right):
    """The status and the text of each command."""
    status, texts, resolved = erd_reference.answer_of(left, prefer)
    if status:
        return [(status, lines(texts))] * 2 + [(status, lines('left: ' + text for text in texts))]
    found = [(0, lines(texts)), (0, erd_reference.canonical_bytes(resolved))]
    status, texts, other = erd_reference.answer_of(right, prefer)
    if status:
        return found + [(status, lines('right: ' + text for text in texts))]
    difference = erd_reference.first_difference(resolved, other)
    return found + [(int(difference is not None), lines(['same' if difference is None else difference]))]


def asked(stream):
    """The next four parts, or none where the questions have ended."""
    parts = []
    for _ in range(4):
        head = stream.read(8)
        if len(head) < 8:
            return None
        parts.append(stream.read(struct.unpack('=Q', head)[0]))
    return parts


def main():
    questions, to = sys.stdin.buffer, sys.stdout.buffer
    while (parts := asked(questions)) is not None:
        try:
            found = answers(parts[1].decode() if parts[0] else None, parts[2], parts[3])
        except Exception:  # pylint: disable=broad-except
            found = [(MISSING, traceback.format_exc().encode())] * 3
        for status, text in found:
            to.write(struct.pack('=QQ', status, len(text)) + text)
        to.flush()


if __name__ == '__main__':
    main()
