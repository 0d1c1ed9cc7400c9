"""The libraries of the kit that the program and the libraries stand on, and their licences, by the kit's own files."""
import pathlib
import re

ROOT = pathlib.Path(__file__).resolve().parent.parent
KNOWN = r'(?:MIT|Apache-2\.0|BSL-1\.0|BSD-3-Clause|Zlib|Unlicense)'


def named_by_crates():
    """The libraries that crates.txt names."""
    lines = [line.split('#')[0] for line in (ROOT / 'crates.txt').read_text(encoding='utf-8').splitlines()]
    own = {line.split(':')[0].split()[0] for line in lines if ':' in line}
    return {name for line in lines if ':' in line for name in line.split(':')[1].split()} - own


def named_by_source(folder, libraries):
    """The libraries that the sources of a library name, but for code that is compiled for tests alone."""
    found = set()
    for path in sorted((folder / 'src').rglob('*.rt')):
        if 'tests' not in path.parts and path.stem != 'tests':
            code = re.sub(r'//.*', '', path.read_text(encoding='utf-8', errors='replace'))
            found.update(re.findall(r'(?<![\w:])(\w+)::', code))
    return (found & libraries) - {folder.name}


def libraries_below(kit):
    """The names of all libraries that are compiled in, sorted."""
    folder = kit / 'rattle'
    libraries = {path.name for path in folder.iterdir() if (path / 'src').is_dir()}
    found, left = set(), set(named_by_crates())
    while left:
        name = left.pop()
        found.add(name)
        left |= named_by_source(folder / name, libraries) - found
    return sorted(found | {'std'})


def licence_files(folder):
    """The texts of the licences in the folder of a library."""
    return sorted(folder.glob('LICENSE*'))


def copyright_of(folder):
    """The lines of the licences in a folder that say whose the copyright is, each once; otherwise None."""
    lines = [' '.join(line.split()) for path in licence_files(folder) for line in path.read_text(encoding='utf-8').splitlines()]
    said = [line for line in lines if re.match(r'Copyright (?:\(c\)|©|Individual)', line, re.I)]
    return '\n'.join(dict.fromkeys(said)) or None


def first_words(folder):
    """What the first paragraph of a library's README says: which crate of Rust it follows, and under which licences that is."""
    path = folder / 'README.md'
    if not path.exists():
        return ''
    paragraphs = path.read_text(encoding='utf-8').split('\n\n')
    return next((' '.join(text.split()) for text in paragraphs if text and not text.startswith('#')), '')


def licence_of(folder):
    """The licence of a library as an SPDX expression, if its own files say it; otherwise None."""
    names = {path.name for path in licence_files(folder)}
    if {'LICENSE-MIT', 'LICENSE-APACHE'} <= names:
        return 'MIT OR Apache-2.0'
    if names == {'LICENSE-UNICODE'}:
        return 'Unicode-3.0'
    said = re.findall(r'(?:\(|under )(%s(?: or %s)*)[,;)]' % (KNOWN, KNOWN), first_words(folder))
    if not names or not said:
        return None
    parts = list(dict.fromkeys(part.replace(' or ', ' OR ') for part in said))
    return parts[0] if len(parts) == 1 else ' AND '.join('(%s)' % part if ' OR ' in part else part for part in parts)
