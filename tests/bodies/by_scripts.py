"""Tries wrong lines where no contract would refuse them: in the page, the packages, the scripts, the C side, `main` and packaging.

Each line is put into a copy of the repository, and the script that its list names must fail there, with the case that the line names.
Lines of one batch are tried in one run; each has a case there that no other line of the batch breaks.
"""
import os
import pathlib
import re
import shutil
import subprocess
import tempfile

from wrong_lists import TOP, BadList, batches_of, misfit, texts_with

# What no line changes is a link in the copy.
LINKED = ('examples', 'crates.txt', 'third_party')
# Crates that are compiled anew, and those that a line changes, have folders of their own there.
COMPILED = ('erd', 'erd_c', 'erd_program')
CHANGED = ('erd_canon', 'erd_compare', 'erd_index', 'erd_meaning')
MADE = ('erd', 'out/c', 'out/conformance', 'out/conformance.made', 'out/portable/erd.wasm', 'out/portable/linux-x86_64',
        *(f'out/portable/parts/program_{machine}_{part}.o' for machine in ('aarch64', 'windows') for part in ('proved', 'heap')))


class Copy:
    """A copy of the repository, in which lines are wrong for a time."""

    def __init__(self, room):
        self.top = pathlib.Path(room)
        for path in TOP.iterdir():
            if path.name in LINKED:
                (self.top / path.name).symlink_to(path)
            elif path.is_file():
                shutil.copy2(path, self.top)
            elif path.name not in ('.git', 'out', 'crates'):
                shutil.copytree(path, self.top / path.name, symlinks=True)
        self.copy_made()
        self.copy_crates()
        self.skipped = None

    def copy_made(self):
        for name in MADE:
            source, target = TOP / name, self.top / name
            target.parent.mkdir(parents=True, exist_ok=True)
            if source.is_dir():
                shutil.copytree(source, target, symlinks=True)
            elif source.exists():
                shutil.copy2(source, target)

    def copy_crates(self):
        (self.top / 'crates').mkdir()
        for path in (TOP / 'crates').iterdir():
            if path.name in COMPILED + CHANGED:
                shutil.copytree(path, self.top / 'crates' / path.name, ignore=shutil.ignore_patterns('out'))
                (self.top / 'crates' / path.name / 'out').mkdir()
            else:
                (self.top / 'crates' / path.name).symlink_to(path)
        for name in ('erd/out/erd', 'erd/out/module.bc', 'erd/out/module.bc.of', 'erd_c/out/liberd_c.a', 'erd_c/out/module.bc',
                     'erd_c/out/module.bc.of', 'erd_program/out/rlib'):
            made, target = TOP / 'crates' / name, self.top / 'crates' / name
            if made.is_dir():
                shutil.copytree(made, target)
            elif made.exists():
                shutil.copy2(made, target)
        for name in CHANGED:
            (self.top / 'crates' / name / 'out' / 'rlib').symlink_to(TOP / 'crates' / name / 'out' / 'rlib')

    def run(self, command, cases=()):
        """What a command of the shell says, and its status. A script may leave out what has none of these cases."""
        more = {'LIBRARY_IS_MADE': 'yes', 'FORMS_ARE_MADE': 'no', 'PYTHONDONTWRITEBYTECODE': '1', **({'CASES': '\n'.join(cases)} if cases else {})}
        return subprocess.run(['bash', '-c', command], cwd=self.top, stdin=subprocess.DEVNULL, stdout=subprocess.PIPE, check=False,
                              stderr=subprocess.STDOUT, text=True, errors='replace', env={**os.environ, **more})

    def failures(self, wanted, lines, cases=()):
        """Puts these lines in, builds what the list says, runs its script, and returns the lines that say that one of the cases failed;
        or one line where the script fails without such a line."""
        texts = texts_with(lines, lambda file: (self.top / file).read_text(encoding='utf-8'))
        try:
            for file, text in texts.items():
                (self.top / file).write_text(text, encoding='utf-8')
            built = self.run(wanted.build)
            ran = built if built.returncode else self.run(wanted.noticed_by, cases)
        finally:
            for file in texts:
                (self.top / file).write_text((TOP / file).read_text(encoding='utf-8'), encoding='utf-8')
        if built.returncode:
            raise BadList(f'not built: {built.stdout[-500:]}')
        said = ran.stdout.splitlines()
        self.skipped = next((text for text in said if text.startswith('skipped')), None)
        broken = [f'FAILED  it ended with status {ran.returncode}: {said[-1] if said else ""}'] if ran.returncode else []
        return [text for text in said if text.startswith('FAILED')] or broken


class Trial:
    """The lines of one list, tried in a copy."""

    def __init__(self, copy, wanted):
        self.copy, self.wanted = copy, wanted
        self.passed = self.failed = 0

    def said(self, line, why, found=''):
        self.passed += not why
        self.failed += bool(why)
        print(f'FAILED  {self.wanted.name}/{line.name}: {why}' if why else f'ok      {self.wanted.name}/{line.name}', flush=True)
        if found:
            print(f'        {unmarked(found)[:200]}', flush=True)

    def tried(self, lines):
        """Tries the lines batch by batch. What is not noticed in company is tried alone."""
        for batch in batches_of(lines):
            for line in self.left_by(batch):
                for last in self.left_by([line]) if len(batch) > 1 else [line]:
                    self.not_noticed(last)

    def not_noticed(self, line):
        """Says that no script noticed the line, or that a tool is missing here with which it could."""
        if self.copy.skipped:
            print(f'skipped {self.wanted.name}/{line.name}: its script {self.copy.skipped}', flush=True)
        else:
            self.said(line, f'no case `{line.case}` failed')

    def left_by(self, lines):
        """Tries these lines together, and returns those whose case did not fail."""
        try:
            found = self.copy.failures(self.wanted, lines, [line.case for line in lines if line.case])
        except BadList as error:
            if len(lines) == 1:
                self.said(lines[0], str(error))
                return []
            return lines
        left = []
        for line in lines:
            caught = next((text for text in found if is_of_case(text, line.case)), None)
            if caught:
                self.said(line, '', caught)
            else:
                left.append(line)
        return left

    def written(self, lines):
        """Tries each of these lines alone, keeps which cases it breaks, and writes the case and the batch of each line into the list."""
        passing = cases_that_pass(self.copy, self.wanted)
        kept = TOP / 'out' / 'wrong_lines' / self.wanted.name
        kept.mkdir(parents=True, exist_ok=True)
        for line in lines:
            try:
                names = sorted({name_of(text, passing) for text in self.copy.failures(self.wanted, [line])})
            except BadList as error:
                self.said(line, str(error))
                continue
            (kept / line.name).write_text(''.join(f'{name}\n' for name in names), encoding='utf-8')
            self.said(line, '' if names else 'no script noticed it', ', '.join(names))
        broken = {it.name: set(it.read_text(encoding='utf-8').splitlines()) for it in kept.iterdir()}
        path = self.wanted.path
        path.write_text(with_batches(path.read_text(encoding='utf-8'), self.wanted, broken), encoding='utf-8')


def is_of_case(text, case):
    """Whether a line of a script says that this case failed, or that any did where none is named."""
    return not case or re.search(rf'^FAILED\s(?:.*\s)?{re.escape(case)}(?=$|:| - )', text) is not None


def unmarked(text):
    """What a line of a script says failed, without the word for it, by which the gate finds what failed in its parts."""
    return re.sub(r'^FAILED\s+', '', text)


# ---- writing a list


def name_of(text, passing):
    """The name of the case that a line of a script tells of: one that passes without wrong lines, or what stands before the reason."""
    text = re.sub('^(Chromium|Firefox): ', '', unmarked(text))
    known = max((case for case in passing if text.startswith(case)), key=len, default='')
    return known or re.match(r'(?s)(.*?)(?=$| - |: ["\'\[{(]|: \d|: status )', text)[1]


def cases_that_pass(copy, wanted):
    """The names of the cases of the script, from a run without wrong lines."""
    said = copy.run(wanted.noticed_by).stdout
    failures = [text for text in said.splitlines() if text.startswith('FAILED')]
    if failures:
        raise BadList(f'it fails without a wrong line: {failures[0]}')
    return [re.sub(r'^((Chromium|Firefox): )?', '', text[8:]) for text in said.splitlines() if text.startswith('ok ')]


def with_batches(text, wanted, broken):
    """The text of the file of a list, with the batch and the case of each of its lines. In a batch each line has a case that no other
    one breaks, and all of them fit together."""
    batches = []
    for line in (it for it in wanted.wrongs if broken.get(it.name)):
        batch = next((it for it in batches if are_told_apart([*it, line], broken) and not misfit([*it, line])), None)
        if batch is None:
            batch = []
            batches.append(batch)
        batch.append(line)
    begin = text.find(f'list: {wanted.name}\n') + 1
    head, text = text[:begin], text[begin:]
    for number, batch in enumerate(batches, 1):
        for name in (line.name for line in batch):
            others = set().union(*(broken[it.name] for it in batch if it.name != name))
            case = min(sorted(broken[name] - others), key=len)
            text = re.sub(rf'^(name: {re.escape(name)}\n)(?:case: .*\n|batch: .*\n)*',
                          lambda found: f'{found[1]}case: {case}\nbatch: {number}\n', text, count=1, flags=re.M)
    return head + text


def are_told_apart(lines, broken):
    names = [line.name for line in lines]
    return all(broken[name] - set().union(*(broken[it] for it in names if it != name)) for name in names)


def prepared():
    """Makes the folders of the conformance cases, and returns whether all is there that others make."""
    subprocess.run([TOP / 'conformance' / 'make'], check=True)
    missing = [name for name in MADE if not (TOP / name).exists()]
    if missing:
        print(f'skipped the wrong lines: there is no {missing[0]}, which make erd portable makes')
    return not missing


def tried(sections, is_writing):
    """Tries these lines, and returns how many were noticed and how many were not."""
    passed = failed = 0
    for wanted, lines in sections if prepared() else []:
        with tempfile.TemporaryDirectory(prefix='erd-lines-') as room:
            trial = Trial(Copy(room), wanted)
            (trial.written if is_writing else trial.tried)(lines)
        passed, failed = passed + trial.passed, failed + trial.failed
    return passed, failed
