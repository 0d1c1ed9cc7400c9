"""Makes the page: one HTML file with everything in it. The same inputs give the same bytes.

usage: build.py WASM [OUTPUT]

WASM is `erd.wasm`. The page goes to OUTPUT, or to out/portable/erd.html.
"""
import base64
import gzip
import hashlib
import html
import json
import os
import pathlib
import re
import sys
import tempfile

# The build leaves no files beside its sources.
sys.dont_write_bytecode = True
import fixes  # noqa: E402

ROOT = pathlib.Path(__file__).resolve().parent.parent
SCRIPTS = ROOT / 'web' / 'scripts'
LANGUAGE = 'en'
# The pages that can be opened from the page: their element and their file.
DOCUMENTS = {'profile': 'PROFILE.md', 'letter': 'VENDORS.md'}
LANGUAGES = {'en': ROOT / 'docs' / 'FIXES.md', 'es': ROOT / 'web' / 'fixes.es.md'}
STYLES = ('style.css', 'results.css', 'print.css')
EXAMPLES = ('county.vendor-a.json', 'county.vendor-b.json')
MOST_BYTES = 1_000_000

IMPORT = re.compile(r"^import \{([^}]*)\} from '([^']+)';\n", re.M)
EXPORT = re.compile(r'^export (?=(?:async )?(?:function\*?|class|const) (\w+))', re.M)
# The scripts of the page and of its worker. What both need stands first in that of the page, up to this line, and the worker takes it from
# there: embedded.mjs has the line too.
FIRST, WORKER = 'page.mjs', 'worker.mjs'
SHARED = '// the worker has what stands above\n'
# The digits of base 85 that mean something in HTML or in a script, and those in their place.
PLAIN = str.maketrans('&<>`', ',.:/')


class BuildError(Exception):
    """The modules can't be joined."""


def joined(first):
    """The modules that one of the two scripts needs, as one script: each after those that it imports, in a function of its own. That of
    the worker goes on where the shared modules end."""
    modules, others = modules_of(first), modules_of(WORKER if first == FIRST else FIRST)
    shared = ''.join(text for path, text in modules.items() if path in others)
    own = ''.join(text for path, text in modules.items() if path not in others) + '})();\n'
    if first == WORKER:
        return own
    if SHARED.strip() in shared:
        raise BuildError('a module that both scripts need has the line that ends these modules')
    return '(() => {\n"use strict";\n' + shared + SHARED + own


def modules_of(first):
    """The modules that one of them needs, each after those that it imports."""
    modules = {}
    add_module((SCRIPTS / first).resolve(), modules)
    return modules


def add_module(path, modules):
    """Adds a module after those that it imports."""
    if path in modules:
        return
    text = path.read_text(encoding='utf-8')
    for _, place in IMPORT.findall(text):
        add_module((path.parent / place).resolve(), modules)
    modules[path] = scoped(path, text)


def scoped(path, text):
    """A module as a constant that has what it exports."""
    imports = ''.join('const {%s} = %s;\n' % (names.replace(' as ', ': '), constant(path.parent / place))
                      for names, place in IMPORT.findall(text))
    names = EXPORT.findall(text)
    text = shorter(EXPORT.sub('', IMPORT.sub('', text)))
    if re.search(r'^(import|export)\b', text, re.M):
        raise BuildError('%s has an import or export of another form' % path.name)
    if any(line.count('`') % 2 for line in text.split('\n')):
        raise BuildError('%s has a text of several lines, of which the blanks would be lost' % path.name)
    return 'const %s = (() => {\n%s%sreturn {%s};\n})();\n' % (constant(path), imports, text, ', '.join(names))


def constant(path):
    """The constant that stands for a module."""
    return re.sub(r'\W', '_', str(path.resolve().relative_to(ROOT).with_suffix(''))) + '_module'


def shorter(text):
    """The text without the lines that are comments alone, and without the blanks before each line."""
    text = re.sub(r'^ */\*\*.*?\*/\n', '', text, flags=re.M | re.S)
    return re.sub(r'^ +', '', re.sub(r'^ *//.*\n', '', text, flags=re.M), flags=re.M).strip() + '\n'


def packed(data):
    """Bytes as a text of base 85, compressed. The header of gzip has no time in it."""
    return base64.b85encode(gzip.compress(data, 9, mtime=0)).decode().translate(PLAIN)


def in_script(text):
    """A script, which must not have what ends or opens an element of its own."""
    if re.search(r'</script|<script|<!--', text, re.I):
        raise BuildError('a script has a text that would end it')
    return '\n' + text


def json_text(value):
    """A value as JSON."""
    return json.dumps(value, ensure_ascii=False, separators=(',', ':'), sort_keys=True)


def sum_of(text):
    """How a Content-Security-Policy names an element with this text."""
    return "'sha256-%s'" % base64.b64encode(hashlib.sha256(text.encode()).digest()).decode()


def policy(style, script):
    """Only this style and this script run, and the worker that the script makes. Nothing may be loaded or sent."""
    return '; '.join((
        "default-src 'none'", "script-src %s 'wasm-unsafe-eval'" % sum_of(script), "style-src " + sum_of(style),
        'worker-src blob:', "connect-src 'none'", "form-action 'none'", "base-uri 'none'",
    ))


def texts_of(language):
    """The texts of a language, which has each text that English has."""
    texts, english = (json.loads((ROOT / 'web' / ('texts.%s.json' % one)).read_text(encoding='utf-8')) for one in (language, 'en'))
    if texts.keys() != english.keys():
        raise BuildError('texts that only one of en and %s has: %s' % (language, ', '.join(sorted(texts.keys() ^ english.keys()))))
    return texts


def tables(texts, template):
    """The tables that the scripts read: texts, fixes, and what the page makes its own sum from."""
    explanations = {language: fixes.read(path) for language, path in LANGUAGES.items()}
    return json_text({'texts': texts, 'fixes': explanations, 'version': version(), 'language': LANGUAGE, 'template': template})


def licences():
    """The licences of erd, and those of the code of others. The Apache License stands among the latter."""
    texts = ((ROOT / name).read_text(encoding='utf-8') for name in ('LICENSE-MIT', 'THIRD-PARTY-NOTICES'))
    return 'erd is licensed under the MIT License or the Apache License 2.0, as you choose.\n\n' + '\n'.join(texts)


def documents():
    """The profile and the letter to the vendor, as they stand in docs/."""
    return {name: (ROOT / 'docs' / file).read_text(encoding='utf-8') for name, file in DOCUMENTS.items()}


def version():
    return (ROOT / 'VERSION').read_text(encoding='utf-8').strip()


def page(wasm):
    """The whole page."""
    texts = {language: texts_of(language) for language in LANGUAGES}
    style = '\n' + '\n'.join((ROOT / 'web' / name).read_text(encoding='utf-8') for name in STYLES)
    script = in_script(joined(FIRST))
    template = (ROOT / 'web' / 'page.html').read_text(encoding='utf-8')
    examples = {name: (ROOT / 'examples' / name).read_text(encoding='utf-8') for name in EXAMPLES}
    parts = {
        'language': LANGUAGE,
        'version': version(),
        'style': style,
        'script': script,
        'policy': html.escape(policy(style, script), quote=False),
        'worker': packed(joined(WORKER).encode()),
        'tables': packed(tables(texts, template).encode()),
        'wasm': packed(wasm),
        'licences': packed(licences().encode()),
        'examples': packed(json.dumps(examples, ensure_ascii=False).encode()),
        'documents': packed(json.dumps(documents(), ensure_ascii=False).encode()),
    }
    return re.sub(r'\{\{(text:)?([\w.]+)\}\}',
                  lambda found: html.escape(texts[LANGUAGE][found[2]]) if found[1] else parts[found[2]], template)


def main(words):
    if len(words) not in (1, 2):
        sys.exit('usage: build.py WASM [OUTPUT]')
    output = pathlib.Path(words[1]) if len(words) == 2 else ROOT / 'out' / 'portable' / 'erd.html'
    made = page(pathlib.Path(words[0]).read_bytes()).encode()
    if len(made) > MOST_BYTES:
        raise BuildError('the page has %d bytes, more than %d' % (len(made), MOST_BYTES))
    output.parent.mkdir(parents=True, exist_ok=True)
    # Whoever reads the page while it is made again gets the whole of it.
    with tempfile.NamedTemporaryFile(dir=output.parent, delete=False) as new:
        new.write(made)
    os.chmod(new.name, 0o644)
    os.replace(new.name, output)


if __name__ == '__main__':
    main(sys.argv[1:])
