"""Prints what the check of a crate costs: in seconds, first of each function and each folder of lemmas, then of single modules, the costliest
first. The modules of a function are its code as the logic has it (`Code`, `Lts`), what the borrow checker leaves (`Tie`), and its proof.

usage: proofs.py CRATE [WORD ..]

The words go to `rt check`, as `--test`, or `--only` and a path. What an earlier check has kept costs nothing, so for all of it delete
crates/CRATE/out first. The prover keeps each module once it is checked, and the seconds are those of the clock between two of them, so run
nothing beside it. What the check itself says stays in out/proofs/CRATE.log.
"""
import collections
import pathlib
import subprocess
import sys
import time

ROOT = pathlib.Path(__file__).resolve().parents[2]
MOST_MODULES = 60


def check(crate, words):
    """Checks the crate with one job, and returns the time at which it began and the status."""
    log = ROOT / 'out' / 'proofs' / f'{crate}.log'
    log.parent.mkdir(parents=True, exist_ok=True)
    began = time.time()
    with log.open('w', encoding='utf-8') as said:
        ran = subprocess.run(['rt', 'check', '--jobs', '1', '--progress', *words], cwd=ROOT / 'crates' / crate, stdout=said,
                             stderr=subprocess.STDOUT, check=False)
    return began, ran.returncode


def costs(crate, began):
    """The modules that were kept since then, in their order, each with the seconds since the one before."""
    kept = (path for path in (ROOT / 'crates' / crate / 'out' / 'incremental').rglob('*.oantt') if '.decls.' not in path.name)
    before = began
    for at, name in sorted((path.stat().st_mtime, path.name) for path in kept):
        if at >= began:
            is_first = before == began
            yield at - before, 'the code, before any module' if is_first else name.removeprefix(f'Rattle-{crate}-').removesuffix('.oantt')
            before = at


def table(found):
    """Prints these costs."""
    for name, seconds in found:
        print(f'{seconds:7.1f} s  {name}')


def main(crate, words):
    began, status = check(crate, words)
    modules, functions = collections.Counter(), collections.Counter()
    for seconds, name in costs(crate, began):
        modules[name] += seconds
        functions[name.rpartition('.')[0] or name] += seconds
    table(functions.most_common())
    print(f'\n{sum(modules.values()):7.1f} s  {len(modules)} modules, of which cost most:')
    table(modules.most_common(MOST_MODULES))
    return status


if __name__ == '__main__':
    sys.exit(main(sys.argv[1], sys.argv[2:]))
