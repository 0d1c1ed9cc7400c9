"""Writes a conformance case of an input of the fuzzer, for a file of conformance/cases: usage kept.py FINDING NAME. The answers are those
of the reference program; read them against docs/PROFILE.md before you keep them, and write `why` by hand. An input with one report is a case for `check` and
`canon`, one with two a case for `compare`.
"""
import pathlib
import sys

import answers
import inputs

GOOD = 0


def parts_of(data):
    """The left report, the right one or none, and the preferred type or none."""
    left, *more = data.split(inputs.BREAK, 2)
    return left, more[0] if more and more[0] else None, more[1].decode() if len(more) > 1 else None


def files_of(left, right, prefer):
    """The files of the case, by their names."""
    check, canonical, compare = answers.answers(prefer, left, right or b'')
    files = {'prefer': prefer.encode() + b'\n'} if prefer is not None else {}
    if right is not None:
        return {**files, 'left.json': left, 'right.json': right, 'compare.txt': compare[1]}
    form = {'canonical.json': canonical[1]} if canonical[0] == GOOD else {}
    return {**files, 'input.json': left, 'check.txt': check[1], **form}


def main():
    finding, name = sys.argv[1:]
    case = inputs.ROOT / 'out' / 'fuzz' / 'kept' / name
    case.mkdir(parents=True)
    (case / 'why').write_text('what it shows. docs/PROFILE.md, section "..".\n', encoding='utf-8')
    for file, data in files_of(*parts_of(pathlib.Path(finding).read_bytes())).items():
        (case / file).write_bytes(data)
    sys.path.insert(0, str(inputs.ROOT / 'conformance'))
    import shorten
    print('\n'.join(shorten.short(case)))


if __name__ == '__main__':
    main()
