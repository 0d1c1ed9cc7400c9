"""Holds the table of parts in CONTRIBUTING.md against tests/gate.sh, its seconds against those of the last run of the gate here, which
leaves them in out/gate-costs, and the minutes that the README tells against those of the page. One machine takes twice what another does,
so the seconds are compared at the pace of the run: what tests/measures/pace.py took, which has nothing of erd. One line a case that fails,
and at the end the counts. With --write the seconds of that run are written into the table."""
import re
import sys

from repository import ROOT
from cases import tell_cases

PAGE = ROOT / 'CONTRIBUTING.md'
HEAD = '| Part | Processor seconds |'
ROW = re.compile(r'^\| (`.*?) \| ([\d,]+) \|', re.M)
COSTS = ROOT / 'out' / 'gate-costs'
# How many times the seconds of the table a part may take, and how many seconds more: a part of some seconds varies by more.
MOST, SLACK = 1.5, 15
EDITS = 'tests/bodies/try_wrong.py --gate CRATE'
PACE = 'tests/measures/pace.py'


def plain(command):
    """A command as the page has it."""
    command = re.sub(r'^python3 ', '', command)
    return EDITS if command.startswith('tests/bodies/try_wrong.py --gate erd_') else command


def rows():
    """The commands of each row of the page, and its seconds."""
    for names, seconds in ROW.findall(table()):
        yield names_of(names), int(seconds.replace(',', ''))


def table():
    """The table of the page."""
    page = PAGE.read_text(encoding='utf-8')
    return page[page.index(HEAD):].split('\n\n')[0]


def names_of(cell):
    """The commands in the first cell of a row."""
    return [plain(name) for name in re.findall(r'`([^`]*)`', cell)]


def spent():
    """The seconds of each command of the last run."""
    found = {}
    for line in COSTS.read_text(encoding='utf-8').splitlines():
        seconds, command = line.split('\t')
        found[plain(command)] = found.get(plain(command), 0) + int(seconds)
    return found


def pace(costs):
    """How many times the seconds of the table the same work took in the last run."""
    return costs[PACE] / next(told for names, told in rows() if PACE in names) if PACE in costs else 1


def write():
    """Writes the seconds of the last run into the rows whose commands it has."""
    costs, page = spent(), PAGE.read_text(encoding='utf-8')

    def with_costs(row):
        names = names_of(row[1])
        return f'| {row[1]} | {sum(costs[name] for name in names):,} |' if all(name in costs for name in names) else row[0]

    PAGE.write_text(page.replace(table(), ROW.sub(with_costs, table())), encoding='utf-8')


def minutes():
    """How many minutes `make test` takes on two processors, as the page says, and as the README says."""
    page, readme = ((ROOT / name).read_text(encoding='utf-8') for name in ('CONTRIBUTING.md', 'README.md'))
    return (re.findall(r'`make test` proves everything and runs all tests\. It takes about (\d+) minutes on two processors', page),
            re.findall(r'^make test .*: about (\d+) minutes on 2 idle cores$', readme, re.M))


def parts():
    """The commands of the gate's lanes."""
    text = (ROOT / 'tests' / 'gate.sh').read_text(encoding='utf-8')
    found = {plain(command) for line in re.findall(r"^(?:lane|first|between|proof| {4}).*'.*$", text, re.M)
             for command in re.findall(r"'([^']*)'", line) if '/' in command and ': ' not in command and 'lists/' not in command}
    return found | {EDITS}


def cases():
    listed = [name for names, _ in rows() for name in names]
    yield 'the parts that the page has', sorted(listed), sorted(parts())
    found, told = minutes()
    yield 'the minutes of the gate, told once', 1, len(found)
    yield 'the minutes that the README tells', found, told
    if not COSTS.exists():
        print('notice: there is no earlier run of the gate here, with which the seconds of the table are compared')
        return
    costs = spent()
    times = pace(costs)
    for names, told in rows():
        found = sum(costs.get(name, 0) for name in names) / times
        is_near = not all(name in costs for name in names) or found <= told * MOST + SLACK and told <= found * MOST + SLACK
        yield 'the seconds of %s' % ', '.join(names), told if is_near else round(found), told


def why(wanted, found):
    """What only one of the two has, or the one beside the other."""
    return set(map(str, wanted)) ^ set(map(str, found)) if isinstance(wanted, list) else f'{found} in place of {wanted}'


if __name__ == '__main__':
    sys.exit(write() if '--write' in sys.argv[1:] else tell_cases(cases(), why))
