#!/usr/bin/env python3
"""Runs the tables of command lines over one form of a command, or over a script. One line a case.

usage: command_lines.py [--beside PROGRAM] [--command NAME] FORM KINDS COMMAND ..

The tables are tests/forms/command_lines.txt, with words and files, and tests/forms/statuses.txt, with states of the streams and what
else can fail. FORM is the name of the form in the lines, which may be empty, KINDS what it is, with commas between them: `program`,
`package`, `python`, `javascript` or `windows`. COMMAND is what starts it. The cases are those of the command NAME, which is `erd` where
none is given. With --beside each case that PROGRAM has too writes there what it writes here, byte for byte.
"""
import contextlib
import dataclasses
import json
import os
import pathlib
import resource
import shutil
import signal
import subprocess
import sys
import tempfile

TOP = pathlib.Path(__file__).resolve().parents[2]
sys.path.append(str(TOP / 'tests' / 'shared'))
from cases import tell  # noqa: E402

TABLES = [TOP / 'tests' / 'forms' / name for name in ('command_lines.txt', 'statuses.txt')]
RULES = ('name', 'command', 'for', 'words', 'env', 'input', 'file', 'streams', 'status', 'out', 'err', 'not', 'only')
HANDLES = {'in': 0, 'out': 1, 'err': 2}
BOUND = 2
SECONDS = 120


@dataclasses.dataclass(frozen=True)
class Ran:
    """What a run left."""

    status: int
    out: bytes
    err: bytes


@dataclasses.dataclass
class Case:
    """A case of a table: its rules, of which each but `file` stands once, and its files."""

    rules: dict
    files: list

    @property
    def name(self):
        return self.rules['name']

    @property
    def words(self):
        for given in json.loads(self.rules['words']):
            for word in given if isinstance(given, list) else [given]:
                yield text_of_pieces(word)

    @property
    def streams(self):
        return json.loads(self.rules.get('streams', '{}'))

    def is_for(self, command, kinds):
        """Whether a form of this command and of these kinds has the case."""
        only = self.rules.get('only')
        return (self.rules.get('command', 'erd') == command and (only is None or only in kinds)
                and not kinds.intersection(self.rules.get('not', '').split()))


def text_of_pieces(given):
    """The text that is given: as it is, or a `text` so many `times`, or a list of these."""
    if isinstance(given, list):
        return ''.join(map(text_of_pieces, given))
    return given if isinstance(given, str) else given['text'] * given['times']


def cases_of(text):
    """The cases of a table, each once for each text that stands for its word in capitals."""
    lines = (line for line in text.splitlines(keepends=True) if not line.startswith('#'))
    for block in filter(None, (block.strip('\n') for block in ''.join(lines).split('\n\n'))):
        for lines_of_case in with_each(block.splitlines()):
            yield case_of(lines_of_case)


def with_each(lines):
    """The lines of a block, once for each text of its first rule `for`, and so on with the next one."""
    at = next((at for at, line in enumerate(lines) if line.startswith('for: ')), None)
    if at is None:
        yield lines
        return
    word, *texts = lines[at][len('for: '):].split(' ')
    for text in texts:
        yield from with_each([line.replace(word, text) for line in lines[:at] + lines[at + 1:]])


def case_of(lines):
    rules, files = {}, []
    for line in lines:
        rule, _, value = line.partition(': ')
        if rule not in RULES or (rule in rules):
            raise SystemExit(f'no rule: {line}')
        if rule == 'file':
            files.append(json.loads(value))
        else:
            rules[rule] = value
    return Case(rules, files)


def text_of(file):
    """The text of a file of a case."""
    if 'text' in file:
        return text_of_pieces(file['text'])
    text = (TOP / file['from']).read_text(encoding='utf-8')
    for before, after in file.get('edits', []):
        if before not in text:
            raise SystemExit(f"{file['from']} has no {before}")
        text = text.replace(before, text_of_pieces(after))
    return text


def put(folder, file):
    """Puts a file of a case into its folder."""
    path = folder / file['name']
    path.parent.mkdir(parents=True, exist_ok=True)
    if 'fifo' in file:
        os.mkfifo(path)
    elif 'folder' in file:
        path.mkdir()
    else:
        path.write_bytes(text_of(file).encode('utf-8'))


def ran(command, case):
    """Runs a command on a case, in a folder that has its files, with its streams in their states."""
    with tempfile.TemporaryDirectory() as room:
        folder = pathlib.Path(room)
        (folder / 'examples').symlink_to(TOP / 'examples')
        for file in case.files:
            put(folder, file)
        words = [word.encode('utf-8', 'surrogateescape') for word in [*command, *case.words]]
        states = case.streams
        if 'disk' in states.values():
            words = on_full_disk(words, next(name for name, state in states.items() if state == 'disk'))
        with open(folder / case.rules.get('input', os.devnull), 'rb') as stdin, contextlib.ExitStack() as opened:
            outer = {name: opened.enter_context(stream_of(states.get(name), folder / f'stream-{name}')) for name in ('out', 'err')}
            ended = subprocess.run(words, cwd=folder, stdin=stdin, stdout=outer['out'], stderr=outer['err'], timeout=SECONDS, check=False,
                                   preexec_fn=(lambda: change(states)) if states else None,
                                   env={**os.environ, 'LC_ALL': 'C.UTF-8', 'XDG_STATE_HOME': str(folder / 'state'),
                                        **json.loads(case.rules.get('env', '{}'))})
        written = {'out': ended.stdout, 'err': ended.stderr}
        return Ran(ended.returncode, *(text if text is not None else (folder / f'stream-{name}').read_bytes() for name, text in written.items()))


@contextlib.contextmanager
def stream_of(state, path):
    """What stands for a stream: a pipe; a file, which is bounded for a process that `change` has changed; a full device; or a pipe that
    nobody reads."""
    if state not in ('full', 'gone', 'bounded'):
        yield subprocess.PIPE
        return
    path.touch()
    place = '/dev/full' if state == 'full' else path
    if state == 'gone':
        reader, place = os.pipe()
        os.close(reader)
    with open(place, 'wb') as file:
        yield file


def change(states):
    """Closes streams of this process, which is to run the command, and bounds the files that it may write."""
    for name, state in states.items():
        if state == 'closed':
            os.close(HANDLES[name])
    if 'bounded' in states.values():
        signal.signal(signal.SIGXFSZ, signal.SIG_IGN)
        resource.setrlimit(resource.RLIMIT_FSIZE, (BOUND, BOUND))


def on_full_disk(words, name):
    """The words that run a command whose stream is a file on a disk of one page."""
    return ['unshare', '-rm', 'sh', '-c', f'mkdir disk && mount -t tmpfs -o size=4k none disk && exec "$@" {HANDLES[name]}> disk/file', 'sh', *words]


def has_disks():
    """Whether this user may have such a disk."""
    if not shutil.which('unshare'):
        return False
    with tempfile.TemporaryDirectory() as room:
        return subprocess.run(on_full_disk(['true'], 'out'), cwd=room, capture_output=True, check=False).returncode == 0


def wrong_stream(stream, rule, found, earlier):
    """What is wrong with the bytes of a stream by its rule; the empty text if nothing is."""
    kind, _, value = (rule or '""').partition(' ')
    if rule == 'any':
        return ''
    if kind == 'ends':
        return '' if found.endswith(json.loads(value).encode()) else f'{stream} ends with {found[-200:]!r}'
    if kind == 'parts':
        text = found.decode('utf-8', 'replace')
        missing = [part for part in json.loads(value) if part not in text]
        missing += [] if text.endswith('\n') and not text.endswith('\n\n') else ['one line feed at its end']
        return f'{stream} has no {missing[0]!r}' if missing else ''
    if kind == 'file':
        wanted = (TOP / value).read_bytes()
    elif kind == 'as':
        wanted = getattr(earlier[value], stream) if value in earlier else None
    else:
        wanted = json.loads(rule or '""').encode('utf-8')
    return '' if found == wanted else f'{stream} {found[:200]!r} in place of {wanted and wanted[:200]!r}'


def wrong(case, run, earlier):
    """What is wrong with a run; the empty text if nothing is."""
    status = '' if run.status == int(case.rules['status']) else f"status {run.status}, not {case.rules['status']}"
    streams = [wrong_stream(stream, case.rules.get(stream), getattr(run, stream), earlier) for stream in ('out', 'err')]
    return '; '.join(filter(None, [status, *streams]))


def tried(cases, before, command, beside):
    """Each case, and what is wrong with what the command does there."""
    earlier = {}
    for case in cases:
        run = earlier[case.name] = ran(command, case)
        why = wrong(case, run, earlier)
        if beside and 'only' not in case.rules and not why and ran([beside], case) != run:
            why = 'the program writes other bytes'
        yield before + case.name, why


def main(words):
    beside = os.path.abspath([words.pop(1) for _ in range(2)][1]) if words[1:2] == ['--beside'] else None
    name = [words.pop(1) for _ in range(2)][1] if words[1:2] == ['--command'] else 'erd'
    _, form, kinds, *command = [os.path.abspath(word) if '/' in word and os.path.isfile(word) else word for word in words]
    cases = [case for table in TABLES for case in cases_of(table.read_text(encoding='utf-8')) if case.is_for(name, set(kinds.split(',')))]
    if not has_disks():
        print(f"skipped {form}: a full disk: unshare and mount may not run here")
        cases = [case for case in cases if 'disk' not in case.streams.values()]
    return tell(tried(cases, f'{form}: ' if form else '', command, beside))


if __name__ == '__main__':
    sys.exit(main(sys.argv))
