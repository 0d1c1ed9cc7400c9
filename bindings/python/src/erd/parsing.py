"""What the commands `erd-many` and `erd.from_xml` share to parse their words. `erd` itself asks the library."""

from __future__ import annotations

import argparse
from typing import List, NoReturn, Optional

from .library import version
from .prepare import names_of
from .streams import STANDARD_OUTPUT, Stop, write_text


class Done(Exception):
    """The words ask for a text that is written, and for nothing else."""


class Version(argparse.Action):
    """Writes the version of the library."""

    def __init__(self, option_strings: list, dest: str) -> None:
        super().__init__(option_strings, dest, nargs=0, help='write the version, and end')

    def __call__(self, parser: argparse.ArgumentParser, *_: object) -> NoReturn:
        write_text(STANDARD_OUTPUT, f'{parser.prog} {version()}\n')
        raise Done()


class Parser(argparse.ArgumentParser):
    """A parser that ends with the status that `erd` has for a wrong command line, and writes all of its help or says that it can't."""

    def error(self, message: str) -> NoReturn:
        raise Stop(f'{self.format_usage()}{self.prog}: {message}')

    def print_help(self, file: object = None) -> None:
        write_text(STANDARD_OUTPUT, self.format_help())

    def exit(self, status: int = 0, message: Optional[str] = None) -> NoReturn:
        raise Done()


def not_empty(text: str) -> str:
    """Returns the text, or refuses it if it is empty."""
    if not text:
        raise argparse.ArgumentTypeError('a value is required')
    return text


def names_of_steps(text: str) -> List[str]:
    """Returns the names of the steps that a text stands for, or refuses it."""
    try:
        return names_of(text)
    except ValueError as error:
        raise argparse.ArgumentTypeError(str(error)) from None


def above_zero(text: str) -> int:
    """Returns the number, or refuses what is no whole number above 0."""
    if not text.isascii() or not text.isdigit() or int(text) == 0:
        raise argparse.ArgumentTypeError('a whole number above 0 is required')
    return int(text)
