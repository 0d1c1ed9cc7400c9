"""Tries wrong programs on the conformance suite: edits of the reference program, of each of which the suite has to fail a case.

A line `each WORD: A B ..` makes a program for each of these texts, which stands in the place of {WORD}; a text with a colon between
two parts, A:B, stands for both, {WORD.0} and {WORD.1}. Where what `unless` says holds, there is no such program. programs.cases names
a case for each, so that only this case is run.
"""
import collections
import importlib.machinery
import importlib.util
import itertools
import os
import pathlib
import re
import types

from wrong_lists import LISTS, TOP, of_repository, texts_with, Wrong

REFERENCE = 'reference/erd_reference.py'
CAUGHT = LISTS / 'programs.cases'


def loaded(name, path):
    """A program in Python as a module."""
    loader = importlib.machinery.SourceFileLoader(name, str(path))
    module = importlib.util.module_from_spec(importlib.util.spec_from_loader(name, loader))
    loader.exec_module(module)
    return module


def filled(text, words):
    """The text with the words in their places; a line below stands for a blank."""
    for word, value in words.items():
        parts = [part.replace('_', ' ') if ' ' not in part else part for part in re.split(r'(?<!\\):', value)]
        text = text.replace('{%s}' % word, value)
        for number, part in enumerate(parts):
            text = text.replace('{%s.%d}' % (word, number), part)
    return text


def programs(wrongs):
    """Each program of these, as something wrong of its own."""
    families = loaded('families', TOP / REFERENCE).FAMILIES
    for wrong in wrongs:
        for texts in itertools.product(*wrong.each.values()):
            words = dict(zip(wrong.each, texts))
            if not (wrong.unless and eval(filled(wrong.unless, words), {'FAMILIES': families})):
                yield Wrong(filled(wrong.name, words), [(file, filled(old, words), filled(new, words)) for file, old, new in wrong.changes])


class Program:
    """A program in Python, whose output is kept and not written."""

    def __init__(self, source):
        self.module = types.ModuleType('wrong_program')
        exec(compile(source, 'wrong_program', 'exec'), self.module.__dict__)
        self.written = {}
        self.module.write_bytes = self.write
        self.read, self.open = self.module.read_input, self.module.open_input
        self.input = b''
        self.module.read_input = lambda handle: self.input if handle == 0 else self.read(handle)

    def write(self, handle, data):
        self.written[handle] = self.written.get(handle, b'') + bytes(data)

    def run(self, words, standard_input):
        """Standard output, standard error and the status; a program that breaks has neither."""
        self.written, self.input = {}, standard_input
        handles = []
        self.module.open_input = lambda name: handles.append(self.open(name)) or handles[-1]
        try:
            status = self.module.main(words)
        except Exception as error:
            return b'', repr(error).encode(), 9
        finally:
            for handle in handles:
                os.close(handle)
        return self.written.get(1, b''), self.written.get(2, b''), status


def caught_before():
    """The case that fails, by the name of the program."""
    lines = CAUGHT.read_text(encoding='utf-8').splitlines() if CAUGHT.exists() else []
    return {name: case for name, _, case in (line.rpartition(': ') for line in lines)}


def is_failed(suite, program, case):
    """Whether the program fails the case by any of its commands."""
    return bool(suite.failures_of_case(program, case) or any(suite.failures_of_list(program, case, command) for command in suite.LISTS))


def tried(sections, is_writing):
    """Tries these programs, and returns how many the suite caught and how many not."""
    suite = loaded('suite', TOP / 'conformance' / 'run')
    folder = pathlib.Path(suite.suite()).resolve()
    caught, known, often, count = caught_before(), {}, collections.Counter(), 0
    for wrong in programs(wrong for _, wrongs in sections for wrong in wrongs):
        count += 1
        program = Program(texts_with([wrong], of_repository)[REFERENCE])
        cases = [str(folder / caught[wrong.name])] if wrong.name in caught else []
        if is_writing:
            cases += sorted(suite.cases_of(folder), key=lambda case: -often[case])
        case = next((case for case in cases if is_failed(suite, program, case)), None)
        if case is None:
            print(f'FAILED  no case fails, of a program that {wrong.name}', flush=True)
        else:
            known[wrong.name] = pathlib.Path(case).name
            often[case] += 1
    if is_writing:
        known = {**caught, **known}
        names = [wrong.name for section, _ in sections for wrong in programs(section.wrongs)]
        CAUGHT.write_text(''.join(f'{name}: {known[name]}\n' for name in names if name in known), encoding='utf-8')
    return sum(often.values()), count - sum(often.values())
