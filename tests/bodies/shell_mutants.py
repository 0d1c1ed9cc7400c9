"""The places of a script of the shell where a small mistake can be made, by its words. A place is a kind, the offsets of a text, and another text.

This reads lines: comments, here-documents and programs of awk and sed that go over lines are left out, and so is what makes no script.
"""
import re
import subprocess

# A word, and what is tried in its place.
TURNED = {'-eq': '-ne', '-ne': '-eq', '-lt': '-ge', '-ge': '-lt', '-gt': '-le', '-le': '-gt', '=': '!=', '!=': '=', '-n': '-z', '-z': '-n',
          '-e': '! -e', '-f': '! -f', '-d': '! -d', '-r': '! -r', '-s': '! -s', '&&': '||', '||': '&&', 'if': 'if !', 'while': 'while !', '!': ''}
TESTS = ('=', '!=', '-n', '-z', '-e', '-f', '-d', '-r', '-s')
KINDS = {'&&': 'and and or', '||': 'and and or', 'if': 'condition', 'while': 'condition', '!': 'condition'}
WORD = re.compile(r'(?<!\S)(-(?:eq|ne|lt|ge|gt|le|n|z|e|f|d|r|s)|!?=|!|&&|\|\||if|while)(?=\s)')
NUMBER = re.compile(r'(?<=[\s=(<>])\d+(?=[\s;)]|$)')
QUOTED = re.compile(r"'[^'$\\]{2,}'")
# A line that is more than a statement, or a part of one.
KEPT = re.compile(r'(if|elif|else|fi|for|while|until|do|done|case|esac|then)\b|[\w-]+\(\)|[{}()]|.*(\)|[\\|{(]|;;)$|.*<<|set -|\. ')


def lines_of(text):
    """Each line of code with its place, but for those of comments, here-documents and quoted texts that go over lines."""
    place, ends, is_quoted = 0, None, False
    for line in text.splitlines(keepends=True):
        code = line.strip()
        if ends is not None:
            ends = None if code == ends else ends
        elif is_quoted:
            is_quoted = line.count("'") % 2 == 0
        elif code and not code.startswith('#'):
            found = re.search(r"<<-? ?'?(\w+)'?", line)
            ends = found[1] if found and '<<<' not in line else None
            is_quoted = line.count("'") % 2 == 1 and '"' not in line
            if not is_quoted:
                yield place, line
        place += len(line)


def sites(text):
    """The places of a text, in order."""
    found = []

    def add(kind, start, end, new):
        found.append({'kind': kind, 'start': start, 'end': end, 'new': new})

    for place, line in lines_of(text):
        code = line.split(' #')[0]
        for word in WORD.finditer(code):
            old = word[1]
            # Outside of brackets it is another word, and behind `!` that is what is turned.
            if old in TESTS and ('[' not in code or code[:word.start(1)].endswith('! ')):
                continue
            add(KINDS.get(old, 'comparison'), place + word.start(1), place + word.end(1), TURNED[old])
        for number in NUMBER.finditer(code):
            add('bound', place + number.start(), place + number.end(), str(int(number[0]) + 1))
        for quoted in QUOTED.finditer(code):
            add('text', place + quoted.start(), place + quoted.end(), "'" + quoted[0][2:])
        start = len(line) - len(line.lstrip())
        if not KEPT.match(line.strip()):
            add('statement', place + start, place + len(line.rstrip()), ':')
    return sorted((it for it in found if is_script(text[:it['start']] + it['new'] + text[it['end']:])), key=lambda it: (it['start'], it['end'], it['new']))


def is_script(text):
    """Whether the shell can read a text to its end."""
    return subprocess.run(['bash', '-n'], input=text, text=True, stderr=subprocess.DEVNULL, check=False).returncode == 0
