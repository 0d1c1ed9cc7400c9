#!/usr/bin/env python3
"""Makes small mistakes in the code that no proof covers, one at a time, and says which of them no test notices.

usage: mutants.py [--number N] [--seed SEED] [--jobs N] [--minutes N] [--most SECONDS] [FILE ..]

It takes N places at random in the files, or in all that AREAS names: a comparison turned, a condition negated, a bound moved by one, a
statement dropped, a text or two arguments exchanged, what is returned emptied. The tests of the file run on each, the cheapest first, in a
copy of the repository; the first that fails has caught it. Each command runs once without a mistake first: one that fails then is left out,
and so is one that takes more than --most seconds. With --minutes no further place is begun after that time. At the end stands a table: for each
file its sites, how many were tried, and how many of those were caught; and then each survivor. One that stands in harmless.txt, with why it
changes nothing, is counted apart. `make erd portable` comes before.
"""
import argparse
import collections
import concurrent.futures
import functools
import json
import os
import pathlib
import random
import re
import shlex
import subprocess
import sys
import tempfile
import threading
import time

sys.dont_write_bytecode = True
import python_mutants  # noqa: E402
import shell_mutants  # noqa: E402
from by_scripts import Copy  # noqa: E402
from wrong_lists import TOP  # noqa: E402

# A mistake that never ends takes no more memory than this. The code of erd.wasm asks for more addresses than that.
BOUNDED = 'ulimit -v 12000000; '
PYTEST = (BOUNDED + 'ERD_TOP=$PWD ERD_LIBRARY=$PWD/out/portable/linux-x86_64/liberd.so.0 PYTHONPATH=$PWD/bindings/python/src '
          '/usr/bin/python3 -m pytest -q -x -p no:cacheprovider bindings/python/tests/')
LINES = ("python3 tests/forms/command_lines.py --beside ./erd 'python -m erd' package,python env "
         'ERD_LIBRARY=$PWD/out/portable/linux-x86_64/liberd.so.0 PYTHONPATH=$PWD/bindings/python/src python3 -m erd')
NAMES = PYTEST + 'test_calls.py -k each_name'
# repeated-names.py is a module of the package too.
AS_MODULE = [PYTEST + 'test_calls.py', PYTEST + 'test_from_xml.py']
STEPS = [BOUNDED + 'python3 tests/prepare/steps.py']
TABLES = 'python3 tests/pages/tables.py'
MODULE = 'node tests/forms/javascript_module.mjs'
REFUSALS = 'node tests/forms/javascript_refusals.mjs'
COMMAND = 'cp -n out/portable/erd.wasm bindings/js; node tests/forms/javascript_command.mjs bindings/js'
PACKAGE = 'tests/forms/javascript_package.sh'
PARTS = [f'node tests/page/{name}.mjs' for name in ('parts', 'lines', 'words', 'shown', 'chosen', 'ballot_words', 'record_words', 'converted',
                                                    'result_told', 'ballots_shown', 'page_told', 'parts_told', 'modules', 'judged')]
PYTHON_TESTS = ('rows', 'help', 'tree', 'library', 'calls', 'ballots', 'prepare', 'resume', 'suite', 'commands', 'from_xml', 'many')
# Which parts of the page in a browser concern which of its modules, the last line all others. What a part notices of another module is not asked.
BROWSED = {
    'overview ballots printed': 'ballot* columns sheets text_changes alignment overview unprinted card search',
    'many': 'many csv survey',
    'prepared': 'prepar* copy_mark',
    'record filed notices voter': 'record findings notices envelope printed seen_box sums page_sum digest',
    'flows results named keyboard': '*',
}

# The files, and the commands that try them, the cheapest first.
AREAS = {
    'contrib/confined.sh': ['tests/program/confined.sh'],
    'contrib/*.py': ['tests/program/contrib.sh', *AS_MODULE],
    'contrib/*': ['tests/program/contrib.sh'],
    'bindings/python/src/erd/prepare/*.py': [TABLES, NAMES, PYTEST + 'test_prepare.py', *STEPS],
    'bindings/python/src/erd/from_xml/*.py': [TABLES, NAMES, PYTEST + 'test_from_xml.py'],
    'bindings/python/src/erd/*.py': [*(PYTEST + f'test_{name}.py' for name in PYTHON_TESTS), LINES],
    'bindings/js/lib/prepare/*.mjs': [TABLES, MODULE, COMMAND, PACKAGE],
    'bindings/js/lib/*.mjs': [MODULE, REFUSALS, COMMAND, *PARTS, PACKAGE],
    'bindings/js/*.mjs': [MODULE, REFUSALS, COMMAND, PACKAGE],
    'web/scripts/from_xml/*.mjs': [TABLES, *(f'node tests/page/{name}.mjs' for name in ('converted', 'shown', 'parts_told')),
                                   'tests/page/page.sh xml_form xml_agree'],
    **{f'web/scripts/{name}.mjs': [*PARTS, f'tests/page/page.sh {parts}'] for parts, names in BROWSED.items() for name in names.split()},
}
# A command that takes so many times as long as without a mistake, and so many seconds more, has noticed it.
TIMES, SECONDS_MORE = 5, 60
UNTRIED = 'untried'
HARMLESS = pathlib.Path(__file__).resolve().parent / 'harmless.txt'


def files_of(names):
    """The files by the commands that try them."""
    found = {}
    for pattern, commands in AREAS.items():
        for path in sorted(TOP.glob(pattern)):
            name = str(path.relative_to(TOP))
            if (not names or name in names) and reader_of(name) is not None:
                found.setdefault(name, [command for command in commands if may_notice(command, name)])
    return found


def may_notice(command, name):
    """Whether a command can notice a mistake in a file: a test in Node alone can if it has the module."""
    test = re.fullmatch(r'node (tests/page/\w+\.mjs)', command)
    return test is None or TOP / name in modules_of(TOP / test[1])


@functools.lru_cache(maxsize=None)
def modules_of(path):
    """A module, and those that it imports, with those that they import."""
    found, waiting = set(), [path]
    while waiting:
        one = waiting.pop()
        if one not in found and one.suffix in ('.mjs', '.js'):
            found.add(one)
            waiting += [(one.parent / other).resolve() for other in re.findall(r"(?:from |import |import\()'(\.[^']+)'", one.read_text(encoding='utf-8'))]
    return found


def reader_of(name):
    """What finds the places of a file, by how it begins and ends; nothing for a file that is no script."""
    first = (TOP / name).open(encoding='utf-8').readline()
    if name.endswith('.mjs'):
        return 'node'
    return python_mutants if name.endswith('.py') else shell_mutants if first.startswith('#!') and first.endswith('sh\n') else None


def sites_of(files):
    """The sites of each file: what kind of mistake, where the text stands, and what comes in its place."""
    readers = {name: reader_of(name) for name in files}
    scripts = [name for name in files if readers[name] == 'node']
    found = {name: readers[name].sites((TOP / name).read_text(encoding='utf-8')) for name in files if readers[name] != 'node'}
    if scripts:
        node = subprocess.run(['node', TOP / 'tests' / 'bodies' / 'javascript_mutants.cjs', *scripts], cwd=TOP, stdout=subprocess.PIPE, check=True)
        found |= json.loads(node.stdout)
    return found


class Copies:
    """A copy of the repository for each thread."""

    def __init__(self, room):
        self.room, self.own = room, threading.local()

    def get(self):
        if not hasattr(self.own, 'copy'):
            self.own.copy = Copy(tempfile.mkdtemp(dir=self.room))
        return self.own.copy


def fails(copy, command, most):
    """Whether a command fails in a copy, or takes more seconds than this. Its first line that says so ends it."""
    until = f"set -o pipefail; {{ {command}; }} 2>&1 | awk '/^FAILED/ {{ exit 1 }}'"
    return copy.run(f'timeout --kill-after=5 {most:.0f} bash -c {shlex.quote(until)}').returncode != 0


def measured(copies, threads, commands, most):
    """The seconds of each of these commands without a mistake. One that fails, or takes longer than `most`, is left out."""
    def taken(command):
        begun = time.monotonic()
        return None if fails(copies.get(), command, most) else time.monotonic() - begun

    found = dict(zip(commands, threads.map(taken, commands)))
    for command, seconds in found.items():
        print(f'{"left out" if seconds is None else f"{seconds:6.1f} s"} {command[-110:]}', flush=True)
    return {command: seconds for command, seconds in found.items() if seconds is not None}


def noticed_by(copies, end, name, site, seconds):
    """The command that notices the mistake, or nothing; UNTRIED where the time is over, or no command is left."""
    if not seconds or time.monotonic() > end:
        return UNTRIED
    copy = copies.get()
    path, text = copy.top / name, (TOP / name).read_text(encoding='utf-8')
    path.write_text(text[:site['start']] + site['new'] + text[site['end']:], encoding='utf-8')
    try:
        return next((command for command, some in seconds.items() if fails(copy, command, TIMES * some + SECONDS_MORE)), None)
    finally:
        path.write_text(text, encoding='utf-8')


def line_of(name, site):
    return (TOP / name).read_text(encoding='utf-8').count('\n', 0, site['start']) + 1


def mistake(name, site):
    """A mistake in words: its file, its kind, and the texts."""
    text = (TOP / name).read_text(encoding='utf-8')
    old, new = (' '.join(part.split()) for part in (text[site['start']:site['end']], site['new']))
    return f'{name}: {site["kind"]}: `{old[:90]}` -> `{new[:90]}`'


def told(name, site):
    """A line for a mistake, with its place."""
    return mistake(name, site).replace(name, f'{name}:{line_of(name, site)}', 1)


def harmless():
    """The mistakes that change nothing for anybody."""
    lines = HARMLESS.read_text(encoding='utf-8').splitlines()
    return {line for line in lines if line and not line.startswith(('#', ' '))}


def table_of(sites, tried, spared, survivors):
    """The table of the files that were tried, and its sum."""
    rows = [(name, len(sites[name]), tried[name], spared[name], len(survivors[name])) for name in sorted(sites) if tried[name]]
    rows.append(('all', sum(map(len, sites.values())), *(sum(row[at] for row in rows) for at in (2, 3, 4))))
    lines = ['| File | Sites | Tried | Caught | Harmless | Survivors |', '|---|--:|--:|--:|--:|--:|']
    return '\n'.join(lines + [f'| `{name}` | {every} | {some} | {some - none - left} | {none} | {left} |' for name, every, some, none, left in rows]) + '\n'


def chosen(sites, number, seed):
    """So many sites of all, each as likely as any other."""
    every = [(name, site) for name in sorted(sites) for site in sites[name]]
    return random.Random(seed).sample(every, min(number, len(every)))


def main(words):
    files = files_of(words.files)
    sites = sites_of(files)
    picked = chosen(sites, words.number, words.seed)
    tried, spared, survivors, begun = collections.Counter(), collections.Counter(), collections.defaultdict(list), time.monotonic()
    known_harmless = harmless()
    end = begun + 60 * words.minutes
    with tempfile.TemporaryDirectory(prefix='erd-mutants-') as room, concurrent.futures.ThreadPoolExecutor(words.jobs) as threads:
        copies = Copies(room)
        used = list(dict.fromkeys(command for name, _ in picked for command in files[name]))
        known = measured(copies, threads, used, words.most)
        own = {name: dict(sorted(((it, known[it]) for it in files[name] if it in known), key=lambda one: one[1])) for name, _ in picked}
        asked = {threads.submit(noticed_by, copies, end, name, site, own[name]): (name, site) for name, site in picked}
        for future in concurrent.futures.as_completed(asked):
            (name, site), by = asked[future], future.result()
            if by == UNTRIED:
                continue
            tried[name] += 1
            is_harmless = by is None and mistake(name, site) in known_harmless
            spared[name] += is_harmless
            if by is None and not is_harmless:
                survivors[name].append(site)
            word = 'caught  ' if by else 'harmless' if is_harmless else 'SURVIVED'
            print(f'{word} {told(name, site)}{f" by {by[-60:]}" if by else ""}', flush=True)
    table = table_of(sites, tried, spared, survivors)
    left = ''.join(f'- {told(name, site)}\n' for name in sorted(survivors) for site in survivors[name])
    print(f'\n{table}\n{left}\n{sum(tried.values())} tried with the seed {words.seed} in {time.monotonic() - begun:.0f} s')
    return 0


def parsed():
    words = argparse.ArgumentParser(description=__doc__.splitlines()[0])
    words.add_argument('--number', type=int, default=100)
    words.add_argument('--seed', type=int, default=int(time.time()) // 86400)
    words.add_argument('--jobs', type=int, default=max(1, (os.cpu_count() or 1) // 2))
    words.add_argument('--most', type=float, default=1200, metavar='SECONDS')
    words.add_argument('--minutes', type=float, default=600)
    words.add_argument('files', nargs='*')
    return words.parse_args()


if __name__ == '__main__':
    sys.exit(main(parsed()))
