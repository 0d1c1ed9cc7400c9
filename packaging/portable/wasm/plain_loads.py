"""Rewrites the loads and stores of vectors that Debian's wasm-opt can't bring to a memory of 32 bits as plain ones: from the
text of a module, as wasm2wat writes it, on standard input, to standard output. The values stay the same.

A load that repeats a number becomes a load of the number and its splat. One that leaves the rest zero has the rest cleared.
A load of one lane goes through two new locals of its function."""
import re
import sys

# By the bits of a lane: the plain load, the splat, how a lane is written and read, the plain store, and the type of a number.
LANES = {
    '8': ('i32.load8_u', 'i8x16.splat', 'i8x16.replace_lane', 'i8x16.extract_lane_u', 'i32.store8', 'i32'),
    '16': ('i32.load16_u', 'i16x8.splat', 'i16x8.replace_lane', 'i16x8.extract_lane_u', 'i32.store16', 'i32'),
    '32': ('i32.load', 'i32x4.splat', 'i32x4.replace_lane', 'i32x4.extract_lane', 'i32.store', 'i32'),
    '64': ('i64.load', 'i64x2.splat', 'i64x2.replace_lane', 'i64x2.extract_lane', 'i64.store', 'i64'),
}
FIRST = {'32': 'v128.const i32x4 0xffffffff 0 0 0', '64': 'v128.const i64x2 0xffffffffffffffff 0'}
# The new locals of each function, after its own.
NEW = ['v128', 'i32', 'i64']
KIND = re.compile(r'^\s*v128\.(load|store)(\d+)_(splat|zero|lane)((?: offset=\d+| align=\d+)*)(?: (\d+))?$')
FUNCTION = re.compile(r'^  \(func \(;\d+;\)')


def plain(line, own):
    """The instructions in place of one; `own` is how many parameters and locals the function has itself."""
    found = KIND.match(line)
    if found is None:
        return [line]
    what, bits, kind, place, lane = found.groups()
    load, splat, write, read, store, number = LANES[bits]
    vector, scalar = own, own + NEW.index(number)
    if kind == 'splat':
        return [load + place, splat]
    if kind == 'zero':
        return [load + place, splat, FIRST[bits], 'v128.and']
    if what == 'load':
        return [f'local.set {vector}', load + place, f'local.set {scalar}', f'local.get {vector}', f'local.get {scalar}',
                f'{write} {lane}']
    return [f'{read} {lane}', store + place]


def words_of(line, name):
    """How many types stand in the parts of a line that begin with the name, as `(param i64 i32)`."""
    return sum(len(part.split()) for part in re.findall(r'\(%s ([^()]*)\)' % name, line))


def main():
    lines = sys.stdin.read().split('\n')
    own, at = 0, 0
    while at < len(lines):
        line = lines[at]
        if FUNCTION.match(line):
            header = [line]
            if lines[at + 1].startswith('    (local '):
                at += 1
                header.append(lines[at])
            own = words_of(header[0], 'param') + sum(words_of(part, 'local') for part in header)
            print('\n'.join(header))
            print('    (local %s)' % ' '.join(NEW))
        else:
            print('\n'.join(plain(line, own)))
        at += 1


main()
