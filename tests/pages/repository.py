"""Where the repository is. Once it is imported, the scripts of this folder find what other folders have."""
import pathlib
import sys

ROOT = pathlib.Path(__file__).resolve().parents[2]
sys.dont_write_bytecode = True
sys.path += [str(ROOT / folder) for folder in ('tests/shared', 'tests/reports', 'tests/library', 'tests/page', 'web')]
