"""The names that are written more than once in one object: what contrib/repeated-names.py has. A wheel has that script in the place of this
file, which reads it from the repository."""
import pathlib

_SCRIPT = pathlib.Path(__file__).resolve().parents[4] / 'contrib' / 'repeated-names.py'
exec(compile(_SCRIPT.read_bytes(), str(_SCRIPT), 'exec'))
