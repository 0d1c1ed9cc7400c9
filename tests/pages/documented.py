"""Holds the examples in doc comments against the crates `uses` and `lower_uses`: each public call of the library has one, and its lines
stand one after another in a source of theirs, where they are run. Only white space may differ, and `assert_eq!` of two values may stand
there as `assert!` that they are equal: the first one prints both, which costs more to prove than the rest of an example. What an example
only asserts may stand there in a condition, joined by `&&`, which costs a third of an assertion, and what it asserts of `call()?` as a
condition on `call() == Ok(..)`, which costs a tenth. One line a case that fails, and at the end the counts.

A public call is a function or a method of a type or trait that the root of a crate names. Laws take no arguments and run
nothing, and a `Log` is seen by contracts alone, so these have no example.
"""

import re
import sys

from repository import ROOT
from cases import tell_cases

CRATES = ['erd_tables', 'erd_index', 'erd_check', 'erd_text', 'erd_meaning', 'erd_normal', 'erd_shown', 'erd_compare', 'erd_canon']
USES = ['lower_uses', 'uses']
CALL = re.compile(r'^( *)(pub )?fn (\w+)(?:<[^(]*>)?\(([^)]*)', re.M)
OWNER = re.compile(r"^(?:impl(?:<[^{]*?>)? (?:\w+(?:<[^{]*>)? for )?|pub trait )(\w+)", re.M)


def bare(text):
    """A text without white space, in which `assert!` stands for `assert_eq!`."""
    parts = re.sub(r'\s', '', text).split('assert_eq!(rt;')
    return parts[0] + ''.join(map(as_assert, parts[1:]))


def as_assert(text):
    """What stands behind `assert_eq!(rt;`, as `assert!` has it: its first comma outside of brackets and texts stands between the values."""
    depth = 0
    for found in re.finditer(r'r#".*?"#|"(?:\\.|[^"\\])*"|[(){}\[\],]', text):
        if found[0] == ',' and depth == 0:
            return f'assert!(rt;{text[:found.start()]}=={text[found.end():]}'
        depth += (found[0] in '([{') - (found[0] in ')]}')
    return f'assert_eq!(rt;{text}'


def is_in(example, source):
    """Whether an example stands in a source of these crates, both without white space: its lines, or in conditions what it asserts at its end."""
    end = re.search(r'(assert!\(rt;((?!assert!).)*\);)*$', example).group()
    conditions = re.findall(r'assert!\(rt;(.*?)\);(?=assert!|$)', end)
    return example in source or example.removesuffix(end) in source and bool(end) and all(is_joined(it, source) for it in conditions)


def is_joined(condition, source):
    """Whether a condition stands whole in a source, as it is or without `?`: what is before it and behind it ends a condition too."""
    return any(re.search(r'(?:[{;]|&&|Ok\()' + re.escape(it) + r'(?:\}|&&|,?\)[;}])', source) for it in (condition, on_result(condition)))


def on_result(condition):
    """What a condition asks of `call()?`, asked of the call's result: of a call that answers the same, with no early return to prove."""
    call, mark, wanted = condition.partition('?==')
    if not mark and condition.endswith('?'):
        call, wanted = condition.strip('!?'), 'false' if condition.startswith('!') else 'true'
    return f'{call}==Ok({wanted})'


def names_at_root(crate):
    """What the root of a crate hands out: the names in its `pub use` lines."""
    root = (ROOT / 'crates' / crate / 'src' / 'lib.rt').read_text(encoding='utf-8')
    names = set()
    for items in re.findall(r'^pub use [\w:]*?::(\{[^}]*\}|\w+);', root, re.M):
        names.update(re.findall(r'\w+', items))
    return names


def doc_before(text, end):
    """The lines of the doc comment that stands before an item, without their slashes."""
    lines = []
    for line in reversed(text[:end].splitlines()):
        line = line.strip()
        if line.startswith('///'):
            lines.append(line[3:].removeprefix(' '))
        elif not line.startswith('#['):
            break
    return '\n'.join(reversed(lines))


def calls_of(crate):
    """Each public call of a crate with its doc comment."""
    names = names_at_root(crate)
    for path in sorted((ROOT / 'crates' / crate / 'src').rglob('*.rt')):
        text = path.read_text(encoding='utf-8')
        for call in CALL.finditer(text):
            indent, public, name, arguments = call.groups()
            owners = [found for found in OWNER.finditer(text) if found.start() < call.start()]
            owner = owners[-1] if indent and owners else None
            if owner is None:
                is_call = public and name in names and arguments.strip()
            else:
                is_trait = owner.group(0).startswith('pub trait')
                is_call = (public or is_trait) and owner.group(1) in names - {'Log'}
            if is_call:
                yield f'{crate}::{owner.group(1) + "::" if owner else ""}{name}', doc_before(text, call.start())


def cases():
    sources = [bare(path.read_text(encoding='utf-8')) for crate in USES for path in (ROOT / 'crates' / crate / 'src').rglob('*.rt')]
    for crate in CRATES:
        for name, doc in calls_of(crate):
            examples = re.findall(r'^```\n(.*?)^```$', doc, re.M | re.S)
            yield f'{name} has an example', True, bool(examples)
            missing = [example for example in examples if not any(is_in(bare(example), source) for source in sources)]
            yield f'{name}: what is not in the crates of uses', [], missing


if __name__ == '__main__':
    sys.exit(tell_cases([('there are public calls', True, any(True for crate in CRATES for _ in calls_of(crate))), *cases()]))
