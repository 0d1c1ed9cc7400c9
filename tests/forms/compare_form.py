"""Compares a form of the library with the conformance suite and with the program.

usage: compare_form.py PROGRAM NATIVE PAIRS SEED FOLDER NAME COMMAND ..

COMMAND is a program that answers many calls, as tests/forms/caller.c does. It gets every case of `conformance/`, whose answers stand
there, and PAIRS random reports and pairs, which PROGRAM answers too. The answers as data to all of these, and what all steps make of
the reports, are compared with those of NATIVE, the same caller with the library of this machine in it. All is compared byte for
byte. FOLDER is for files.
"""
import copy
import importlib.machinery
import importlib.util
import json
import pathlib
import random
import subprocess
import sys

ROOT = pathlib.Path(__file__).resolve().parents[2]
sys.dont_write_bytecode = True
sys.path.insert(0, str(ROOT / 'tests' / 'program'))
from agrees_with_reference import EXAMPLES, cases  # noqa: E402
from cases import tell  # noqa: E402

MOST_SECONDS = 600
STEPS = 'removed,filled-in,visible,view'


def suite():
    """The program conformance/run as a module."""
    loader = importlib.machinery.SourceFileLoader('run', str(ROOT / 'conformance' / 'run'))
    module = importlib.util.module_from_spec(importlib.util.spec_from_loader('run', loader))
    loader.exec_module(module)
    return module


class Question:
    """A call as the program is given it, and what it must write: its standard output, standard error and status."""

    def __init__(self, name, words, expected):
        self.name, self.expected = name, expected
        self.command, *rest = words
        if rest[0] == '--json':
            # An answer as data has no line feed; that of the program has one.
            output, errors, status = expected
            self.command += '_values' if self.command == 'differences' else '_data'
            rest, self.expected = rest[1:], (output.removesuffix(b'\n'), errors, status)
        self.prefer = rest[1] if rest[0] == '--prefer' else None
        self.files = rest[2:] if rest[0] == '--prefer' else rest

    def line(self):
        """The line that asks for it. The preference is in hexadecimal, since it may have a line feed or a tab."""
        return '\t'.join([self.command, '-' if self.prefer is None else '=' + self.prefer.encode().hex(), *map(str, self.files)])

    def what_differs(self, outcome, text):
        """Says where an answer differs from what the program must write."""
        output, errors, status = self.expected
        wanted = output or errors
        if outcome == status and text == wanted:
            return None
        return f'{self.name}: {self.command}: status {outcome}, wanted {status}; {text[:200]!r}, wanted {wanted[:200]!r}'


def of_the_suite():
    """Every call of the conformance suite, but for the filter, which no library has."""
    run, questions = suite(), []

    def keep(kind, *rest):
        words, _, expected = rest[-3:]
        if kind != 'filter':
            questions.append(Question(pathlib.Path(words[-1]).parent.name, words, expected))
        return []

    run.differences_of_run = keep
    for case in run.cases_of(run.suite()):
        run.failures_of_case([], case)
    return questions


def of_random_reports(program, count, seed, folder):
    """Random reports and pairs, with what the program writes of them."""
    questions = []
    bases = [json.loads((ROOT / 'examples' / f'{name}.json').read_text(encoding='utf-8')) for name in EXAMPLES]
    for number, case in enumerate(cases(bases, count, random.Random(seed))):
        words = ['canon'] if case.command == 'filter' else case.command.split()
        words += [] if case.prefer is None else ['--prefer', case.prefer]
        for side, data in enumerate(case.inputs()):
            path = folder / f'{number}-{side}.json'
            path.write_bytes(data)
            words.append(str(path))
        ran = subprocess.run([program, *words], capture_output=True, check=False)
        questions.append(Question(f'random {number}', words, (ran.stdout, ran.stderr, ran.returncode)))
    return questions


def as_data(native, questions):
    """The same checks and lists of what differs once more, answered as data, lists with values and without, with what the native library
    answers."""
    asked = []
    for question in questions:
        for kind in ('_data', '_values') if question.command == 'differences' else ('_data',):
            if question.command in ('check', 'compare', 'differences'):
                asked.append(copy.copy(question))
                asked[-1].command += kind
    return answered(native, asked)


def prepared(native, questions):
    """Each report once more, with all that all steps make of it, and what the native library answers. The steps stand in the
    place of the preference."""
    asked = []
    for question in questions:
        if question.command in ('check', 'canon'):
            asked.append(copy.copy(question))
            asked[-1].command, asked[-1].prefer = 'prepare', STEPS
    return answered(native, asked)


def answered(native, asked):
    """Questions with what the native library answers."""
    for question, (outcome, text) in zip(asked, answers_of([native], asked)):
        question.expected = (text, b'', outcome)
    return asked


def answers_of(command, questions):
    """The outcome and the text of each call."""
    asked = ''.join(question.line() + '\n' for question in questions).encode()
    ran = subprocess.run(command, input=asked, capture_output=True, check=False, timeout=MOST_SECONDS)
    if ran.returncode != 0:
        sys.exit(f'{command[0]} ended with status {ran.returncode}: {ran.stderr.decode(errors="replace")[-500:]}')
    rest, answers = ran.stdout, []
    while rest:
        head, _, rest = rest.partition(b'\n')
        outcome, length = map(int, head.split())
        answers.append((outcome, rest[:length]))
        rest = rest[length:]
    return answers


def compared(name, kind, questions, answers):
    """The first calls whose answers differ, each a case, or one case for all of them."""
    differences = list(filter(None, (question.what_differs(*answer) for question, answer in zip(questions, answers))))
    if len(answers) != len(questions):
        differences.append(f'the answers: {len(answers)} to {len(questions)} calls')
    for difference in differences[:3]:
        case, _, why = difference.partition(': ')
        yield f'{name}: {case}', why
    if not differences:
        yield f'{name}: {len(questions)} calls, {kind}', ''


def main():
    program, native, pairs, seed, folder, name, *command = sys.argv[1:]
    of_suite = of_the_suite()
    of_random = of_random_reports(program, int(pairs), int(seed), pathlib.Path(folder))
    return tell(case for kind, questions in [
        ('the suite', of_suite),
        (f'random reports and pairs, seed {seed}', of_random),
        ('answers as data', as_data(native, of_suite + of_random)),
        ('what is prepared', prepared(native, of_suite + of_random)),
    ] for case in compared(name, kind, questions, answers_of(command, questions)))


if __name__ == '__main__':
    sys.exit(main())
