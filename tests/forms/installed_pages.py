"""Holds what installed pages name against what is installed: `installed_pages.py FOLDER` looks into the folder of the
installed documents.
A file or folder of the repository that a page or a script there names is in that folder too, and a link to a part of a page still leads to
that part. One line a case that fails, and at the end the counts.
"""

import pathlib
import re
import sys

ROOT = pathlib.Path(__file__).resolve().parents[2]
sys.dont_write_bytecode = True
sys.path.append(str(ROOT / 'tests' / 'shared'))
from cases import tell_cases  # noqa: E402

FOLDERS = sorted(path.name for path in ROOT.iterdir() if path.is_dir() and not path.name.startswith('.') and path.name != 'out')


def named(text):
    """What looks like a path in the repository: the target of a link, a page by its name, or words with a folder in front. What a page
    says to be of the source is not looked for."""
    text = re.sub(r'\(`[^`]*` of the source\)', '', text)
    yield from re.findall(r'\]\(([^)#:]+)(?:#[^)]*)?\)', text)
    yield from re.findall(r'(?<![\w./-])([A-Z]{4,}\.md)\b', text)
    yield from re.findall(rf'(?<![\w./-])((?:{"|".join(FOLDERS)})/[\w./-]*\w)', text)


def links(text):
    """Each link of a page: its words, the page that it leads to, and the part of it."""
    return [(words, target.split('/')[-1], part) for words, target, part in re.findall(r'\[([^\]]*)\]\(([^)#:]*)(#[^)]*)?\)', text)]


def lost_parts(page, source):
    """The links of a page of the repository to a part of a page that lead to another place where it is installed."""
    found = links(page.read_text(encoding='utf-8'))
    led = {(words, name) for words, name, _ in found}
    return [link for link in links(source.read_text(encoding='utf-8')) if link[2] and link[:2] in led and link not in found]


def cases(folder):
    pages = sorted(path for path in folder.rglob('*') if path.is_file() and path.suffix in ('.md', '.sh', '.yml', ''))
    for page in pages:
        place = page.relative_to(folder)
        missing = set()
        for name in named(page.read_text(encoding='utf-8')):
            beside, above = place.parent / name, pathlib.Path(name)
            known = [way for way in (beside, above) if (ROOT / way).exists()]
            if known and not any((folder / way).exists() for way in known):
                missing.add(name)
        yield f'what {place} names', [], sorted(missing)
        if page.suffix == '.md' and (ROOT / place).exists():
            yield f'the parts that {place} leads to', [], lost_parts(page, ROOT / place)
    yield 'there are pages', True, len(pages) > 5


if __name__ == '__main__':
    sys.exit(tell_cases(cases(pathlib.Path(sys.argv[1])), lambda _, found: f'{found} is not installed'))
