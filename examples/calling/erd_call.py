"""Checks a report, or compares two: `erd_call.py FILE` or `erd_call.py LEFT RIGHT`. Writes the text and ends with the status,
as the program erd does."""
import sys

import erd


def read(name):
    with open(name, 'rb') as file:
        return file.read()


def main(names):
    if len(names) not in (1, 2):
        print('usage: erd_call.py FILE, or erd_call.py LEFT RIGHT', file=sys.stderr)
        return 3
    reports = [read(name) for name in names]
    try:
        result = erd.check(*reports) if len(reports) == 1 else erd.compare(*reports)
    except erd.TooLong:
        print('too long', file=sys.stderr)
        return 3
    sys.stdout.write(result.text)
    return result.status


if __name__ == '__main__':
    sys.exit(main(sys.argv[1:]))
