"""Writes what the fuzzer begins with: usage inputs.py FOLDER. FOLDER/words.h has the names of the member table and other words, and
FOLDER/seeds an input for each case of out/conformance, which conformance/make makes, and for each example that is not large."""
import json
import pathlib
import sys

ROOT = pathlib.Path(__file__).resolve().parents[2]
sys.dont_write_bytecode = True
sys.path[:0] = [str(ROOT / 'tests' / 'program'), str(ROOT / 'reference')]
from agrees_with_reference import CLASSES, NAMES, NUMBERS, TEXTS, TYPES  # noqa: E402

BREAK = b'\xfe'
MOST_BYTES = 16000
LITERALS = ['null', 'true', 'false']


def words_of(name, words):
    """A list in C. A word is the text between the quotes of a JSON text, or that of a number."""
    return f'static const char *const {name}[] = {{{", ".join(json.dumps(word) for word in words)}}};\n'


def escaped(texts):
    """Each text as JSON has it between its quotes, without characters that C would read in its own way."""
    return [json.dumps(text)[1:-1] for text in texts]


def written_words():
    return ''.join([
        words_of('names', escaped(NAMES)),
        words_of('classes', CLASSES),
        words_of('types', escaped(TYPES)),
        words_of('texts', escaped(TEXTS + TYPES)),
        words_of('plain', LITERALS + NUMBERS),
    ])


def input_of_case(case):
    """The bytes of a case: a report or two, and the preferred type."""
    prefer = case / 'prefer'
    if (case / 'input.json').exists():
        sides = [(case / 'input.json').read_bytes(), b'']
    else:
        sides = [(case / name).read_bytes() for name in ('left.json', 'right.json')]
    if prefer.exists():
        return BREAK.join([*sides, prefer.read_bytes().rstrip(b'\n')])
    return BREAK.join(sides) if sides[1] else sides[0]


def with_long_lines():
    """A report whose fault lines take 80 kB, so that no call has room for them at first."""
    report = json.loads((ROOT / 'examples' / 'one-unit.json').read_text(encoding='utf-8'))
    return json.dumps({**report, 'N' * 2000: [0.5] * 40}).encode()


def main():
    folder = pathlib.Path(sys.argv[1])
    (folder / 'words.h').write_text(written_words(), encoding='utf-8')
    seeds = folder / 'seeds'
    seeds.mkdir(exist_ok=True)
    found = {case.name: input_of_case(case) for case in sorted((ROOT / 'out' / 'conformance').iterdir()) if case.is_dir()}
    found['long-lines'] = with_long_lines()
    found.update((path.name, path.read_bytes()) for path in sorted((ROOT / 'examples').glob('*.json')))
    for name, data in found.items():
        if len(data) <= MOST_BYTES:
            (seeds / name).write_bytes(data)


if __name__ == '__main__':
    main()
