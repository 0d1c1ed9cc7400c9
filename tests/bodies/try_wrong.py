#!/usr/bin/env python3
"""Tries what the lists of tests/bodies/lists say is wrong: bodies that a contract has to refuse, lines that a script has to notice, and
programs of which the conformance suite has to fail a case.

usage: try_wrong.py [--gate | --write] [bodies | lines | programs | LIST | LIST/NAME ..]

With --gate this is what the gate tries. With --write the cases and the batches are written into the lists of scripts, each line tried
alone, and the cases of programs into tests/bodies/lists/programs.cases. `make erd portable` comes before the lines.
"""
import sys

sys.dont_write_bytecode = True
import by_contracts  # noqa: E402
import by_scripts  # noqa: E402
import by_suite  # noqa: E402
import wrong_lists  # noqa: E402

BY = {'bodies': by_contracts, 'lines': by_scripts, 'programs': by_suite}


def chosen(names, is_gate):
    """The sections with what is to be tried of them, by their kind. It ends where nothing has one of the names."""
    found, met = {kind: [] for kind in BY}, set()
    for section in wrong_lists.lists():
        wrongs = []
        for wrong in section.wrongs:
            own = {section.kind, section.name, f'{section.name}/{wrong.name}'} & set(names)
            met |= own
            if (own or not names) and (wrong.gate or not is_gate):
                wrongs.append(wrong)
        if wrongs:
            found[section.kind].append((section, wrongs))
    if set(names) - met:
        sys.exit(f'there is no list, and nothing in a list, of the name {min(set(names) - met)}')
    return found


def main(words):
    names = [word for word in words if word not in ('--gate', '--write')]
    passed = failed = 0
    for kind, sections in chosen(names, '--gate' in words).items():
        counts = BY[kind].tried(sections, '--write' in words) if sections else (0, 0)
        passed, failed = passed + counts[0], failed + counts[1]
    print(f'{passed} passed, {failed} failed')
    return int(failed > 0)


if __name__ == '__main__':
    sys.exit(main(sys.argv[1:]))
