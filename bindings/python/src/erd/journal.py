"""What a run over many files has found so far, kept so that a run that was cut off can go on."""

from __future__ import annotations

import hashlib
import json
import os
import sys
from pathlib import Path
from typing import Dict, Iterable, List, Optional

from . import version
from .streams import Stop, write


def folder() -> Path:
    """Returns the folder of the journals, by the custom of the system."""
    if sys.platform == 'win32':
        base = os.environ.get('LOCALAPPDATA') or Path.home() / 'AppData' / 'Local'
    else:
        base = os.environ.get('XDG_STATE_HOME') or Path.home() / '.local' / 'state'
    return Path(base) / 'erd'


def stamp(file: str) -> Optional[List[int]]:
    """Returns the size of a file and when it was written and changed, by which a file that has changed is judged anew."""
    try:
        found = os.stat(file)
    except OSError:
        return None
    return [found.st_size, found.st_mtime_ns, found.st_ctime_ns]


class Journal:
    """A file with a line for each row. Its name follows from what the run was asked for, and the version of the library. A run
    that can't keep it stops, and says where it would be."""

    def __init__(self, names: Iterable[str], prefer: Optional[str], pattern: str, keeps: bool, steps: Iterable[str] = ()) -> None:
        asked = [[os.path.abspath(name) for name in names], prefer, pattern, version(), *steps]
        name = hashlib.sha256(json.dumps(asked).encode('ascii')).hexdigest()[:32]
        self.path = folder() / f'{name}.jsonl'
        self.handle: Optional[int] = None
        self.stamps: Dict[str, Optional[List[int]]] = {}
        try:
            self.path.parent.mkdir(parents=True, exist_ok=True)
            if not keeps:
                self.path.unlink(missing_ok=True)
            self.handle = os.open(self.path, os.O_WRONLY | os.O_CREAT | os.O_APPEND | getattr(os, 'O_BINARY', 0), 0o666)
        except OSError:
            raise self.failed() from None
        self.write('\n')  # behind a last line that was cut off

    def __enter__(self) -> Journal:
        return self

    def __exit__(self, *_: object) -> None:
        self.close()

    def failed(self) -> Stop:
        """Returns what ends a run that can't keep its journal."""
        variable = 'LOCALAPPDATA' if sys.platform == 'win32' else 'XDG_STATE_HOME'
        return Stop(f'the journal of the run cannot be kept in {self.path.parent}: let {variable} name a folder for it')

    def write(self, line: str) -> None:
        """Writes a line."""
        try:
            write(self.handle, line.encode('ascii'))
        except Stop:
            raise self.failed() from None

    def close(self) -> None:
        """Closes the file."""
        if self.handle is not None:
            os.close(self.handle)
            self.handle = None

    def look_at(self, files: Iterable[str]) -> None:
        """Takes the stamps of the files of this run, before one of them is read: what changes after that is judged anew."""
        self.stamps = {file: stamp(file) for file in files}

    def rows(self) -> List[Dict[str, object]]:
        """Returns the rows of the files of this run, but for files that have changed since. A last line that was cut off is
        passed over."""
        found: Dict[str, Dict[str, object]] = {}
        try:
            lines = self.path.read_text('ascii').splitlines()
        except (OSError, ValueError):
            return []
        for line in lines:
            try:
                kept = json.loads(line)
                row = kept['row']
                if kept['stamp'] is not None and kept['stamp'] == self.stamps.get(row['file']):
                    found[row['file']] = row
            except (ValueError, KeyError, TypeError):
                continue
        return list(found.values())

    def add(self, row: Dict[str, object]) -> None:
        """Keeps a row."""
        self.write(json.dumps({'row': row, 'stamp': self.stamps.get(str(row['file']))}) + '\n')

    def remove(self) -> None:
        """Takes the journal away, once the run is whole."""
        self.close()
        self.path.unlink(missing_ok=True)
