"""The C side of the library with a wrong line of the list `library`: usage planted.py NAME, to standard output."""
import pathlib
import sys

ROOT = pathlib.Path(__file__).resolve().parents[2]
sys.path.insert(0, str(ROOT / 'tests' / 'bodies'))
import wrong_lists  # noqa: E402

line = next(line for section in wrong_lists.lists() if section.name == 'library' for line in section.wrongs if line.name == sys.argv[1])
sys.stdout.write(wrong_lists.texts_with([line], wrong_lists.of_repository)[line.changes[0][0]])
