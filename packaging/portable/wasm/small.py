"""Marks the functions of a module that only some calls need, so that clang makes them small in place of fast: small.py CALL ..
reads the text of the module on standard input, and writes it to standard output. A function that another call needs too stays as it is."""
import re
import sys

NAME = re.compile(r'@(?:"[^"]+"|[\w.$-]+)')
# The groups of attributes, or the brace, at the end of the first line of a function.
END = re.compile(r'((?: #\d+)? \{)$')
SMALL = ' minsize optsize'


def needs(lines):
    """The names that each function and each constant needs, and the functions that can be called from outside."""
    needed, called, name = {}, [], None
    for line in lines:
        if line.startswith(('define ', '@')):
            name, *others = NAME.findall(line)
            needed[name] = set(others)
            if line.startswith('define ') and not line.startswith(('define internal ', 'define private ')):
                called.append(name)
        elif name is not None:
            needed[name].update(NAME.findall(line))
        if line == '}':
            name = None
    return needed, called


def reached(starts, needed):
    """The names that these need, and those themselves."""
    found, left = set(), list(starts)
    while left:
        name = left.pop()
        if name not in found:
            found.add(name)
            left.extend(needed.get(name, ()))
    return found


def main(calls):
    lines = sys.stdin.read().split('\n')
    needed, called = needs(lines)
    small = {'@' + name for name in calls}
    if not small <= set(called):
        sys.exit('small.py: the module has no call %s' % ' '.join(sorted(small - set(called))))
    fast = reached(set(called) - small, needed)
    for at, line in enumerate(lines):
        if line.startswith('define ') and NAME.search(line)[0] not in fast:
            lines[at] = END.sub(SMALL + r'\1', line)
    sys.stdout.write('\n'.join(lines))


main(sys.argv[1:])
