"""Makes the site and looks at it: where its links lead, what each page has, and in Chromium how wide each page is at 375 points, and what the
search finds first with no server. A site of a few small pages is held against what is wanted by hand. One line a case that fails, and at the
end the counts."""
import html.parser
import json
import os
import pathlib
import re
import shutil
import subprocess
import sys
import tempfile
import urllib.parse

from repository import ROOT
from cases import tell
SITE = ROOT / 'out' / 'site'
WIDTH = 375
# What people ask, and the page that the search has to lead to first.
ASKED = {
    'mac': 'docs/INSTALL.html', 'invalid': 'docs/GUIDE.html', 'memory': 'docs/LIMITS.html', 'compare two files': 'docs/GUIDE.html',
    'why is a file rejected': 'docs/GUIDE.html', 'Why was my file rejected?': 'docs/GUIDE.html', 'how do I compare two ballots': 'docs/GUIDE.html',
    'what is in a release': 'docs/INSTALL.html', 'what does a release hold': 'docs/INSTALL.html', 'spanish': 'docs/GUIDE.html', 'release': 'docs/INSTALL.html', 'what is proved': 'index.html', 'untrusted': 'docs/GUIDE.html',
    'byte order mark': 'docs/FIXES.html',
}


# A repository of a few pages.
SMALL = {
    'VERSION': '1.2.3\n', 'CHANGELOG.md': '# Changes\n\n## Unreleased\n\n## 1.2.3 - 2031-02-03\n\n## 1.2.0 - 2030-02-03\n',
    'README.md': '# `erd`\n\nFirst words, [the guide](docs/GUIDE.md#one), [a file](examples/a.json), [a folder](examples) and [another](more).\n',
    'docs/GUIDE.md': '# The guide & more\n\n## One\n\nWords of `one`.\n\n### Deep\n\n| a |\n|---|\n| b |\n\n'
                     '## Two\n\n[Up](../README.md), [the web](https://a.example/x.md).\n',
    'examples/README.md': '# Examples\n\n## One\n\n## Two\n', 'examples/a.json': '{}', 'more/b.txt': '', 'web/fixes.es.md': '# Arreglos\n',
    'docs/OTHER.md': 'No heading.\n', 'third_party/x.md': '# X\n', 'crates/y/z.md': '# Z\n', 'out/made.md': '# Made\n', 'node_modules/n.md': '# N\n',
    'out/portable/erd.html': 'the page', 'out/erd-1.2.3-conformance.tar.gz': 'the suite', 'out/erd-1.2.0-conformance.tar.gz': 'an older one',
}


class Links(html.parser.HTMLParser):
    """What a page leads to, and the anchors that it has."""

    def __init__(self, path):
        super().__init__()
        self.links, self.anchors = [], set()
        self.feed(path.read_text(encoding='utf-8'))

    def handle_starttag(self, tag, attributes):
        values = dict(attributes)
        self.anchors.add(values.get('id'))
        self.links += [values[name] for name in ('href', 'src', 'action') if values.get(name)]


def links_that_fail(pages):
    """Each page with its links that lead nowhere."""
    read = {path: Links(path) for path in pages}
    for path, page in read.items():
        broken = []
        for link in page.links:
            if re.match(r'[a-z]+:', link):
                continue
            name, _, anchor = urllib.parse.unquote(link).partition('#')
            target = pathlib.Path(os.path.normpath(path.parent / name)) if name else path
            if not target.is_file() or anchor and target in read and anchor not in read[target].anchors:
                broken.append(link)
        yield f'the links of {path.relative_to(SITE)}', '' if not broken else f'these lead nowhere: {broken}'


def parts_that_lack(pages):
    """Each page leads to all others, names the version, and has its contents if it is long."""
    version = (ROOT / 'VERSION').read_text(encoding='utf-8').strip()
    for path in pages:
        text = path.read_text(encoding='utf-8')
        lacking = [words for words in ('<nav id="pages"', 'aria-label="On this page"' if text.count('<h2 id=') > 2 else '', f'erd {version} of ') if words not in text]
        yield f'what {path.relative_to(SITE)} lacks', ', '.join(lacking)


def navigation():
    """All pages for readers are in the navigation: those of these folders."""
    wanted = {str(path.relative_to(ROOT).with_suffix('.html')) for pattern in ('*.md', 'docs/*.md', 'web/*.md', 'bindings/*/README.md', '*/README.md')
              for path in ROOT.glob(pattern) if not path.is_relative_to(ROOT / 'out')}
    found = re.findall('<li><a href="([^"]*)"', (SITE / 'index.html').read_text(encoding='utf-8').split('<nav id="pages"')[1].split('<h2>Files')[0])
    yield from compared(('the pages in the navigation', sorted(wanted - {'README.html'} | {'index.html'}), sorted(found)))


def in_browser(pages):
    """What Chromium says of the pages at the width of a phone, and what the search finds."""
    import browsers
    missing = browsers.Chromium.missing()
    if missing:
        print(f'skipped the site in Chromium: not installed: {missing}')
        return
    with tempfile.TemporaryDirectory() as folder:
        browser = browsers.Chromium(folder)
        try:
            browser.resize(WIDTH, 800)
            for path in pages:
                browser.open(path.as_uri())
                wide = browser.script('return document.documentElement.scrollWidth')
                yield f'{path.relative_to(SITE)} at {WIDTH} points', '' if wide <= WIDTH else f'it is {wide} wide'
            said = 'return document.querySelector("#count")?.textContent'
            browser.open((SITE / 'search.html').as_uri() + '?words=canonical%20numbers')
            browser.until(said)
            found = browser.script('return [...document.querySelectorAll("#found a")].map((link) => link.getAttribute("href"))')
            yield 'the search finds something', '' if found else 'nothing'
            yield 'the search leads to pages', '' if all((SITE / link.split('#')[0]).exists() for link in found) else str(found)
            for words, wanted in ASKED.items():
                browser.open((SITE / 'search.html').as_uri() + '?words=' + urllib.parse.quote(words))
                browser.until(said)
                first = browser.script('return document.querySelector("#found a")?.getAttribute("href")')
                yield f'the search for {words}', '' if first and first.split('#')[0] == wanted else str(first)
            yield from searched(browser, said)
        finally:
            browser.close()


def searched(browser, said):
    """What the search says of what it has found: how many sections, the first 50 of them, and the words marked in each."""
    def found(words):
        browser.open((SITE / 'search.html').as_uri() + '?words=' + urllib.parse.quote(words))
        browser.until('return document.querySelector("#found") && typeof search === "function"')
        return browser.script('return [document.querySelector("#count").textContent, document.querySelectorAll("#found li").length, '
                              '[...document.querySelectorAll("#found mark")].map((mark) => mark.textContent.toLowerCase())]')

    count, rows, marks = found('minisign')
    yield from compared(('few sections are found', True, 0 < rows < 50), ('how many they are', f'{rows} sections:', count),
                        ('what is marked in them', {'minisign'}, set(marks)))
    count, rows, marks = found('Does the RAM grow?')
    yield from compared(('another word for it is found, and marked', True, rows > 0 and 'memory' in marks and set(marks) <= {'ram', 'memory', 'grow'}))
    count, rows, _ = found('report')
    yield from compared(('the first of many sections', [50, True],
                         [rows, re.fullmatch('[0-9]{2,} sections, of which the first 50 stand here:', count) is not None]))
    yield from compared(('words that say nothing are asked for where there are no others', True, found('the')[1] > 0))
    yield from compared(('no words', ['', 0, []], found(' ')),
                        ('words that are nowhere', ['Nothing has all of these words.', 0, []], found('minisign zzzyyyxxx')))
    yield from compared(('what people ask, whose other words are nowhere', [], browser.script(
        'return Object.entries(ALSO).filter(([, words]) => !words.every((word) => sections.some(({ heading, text }) => '
        '(heading + " " + text).toLowerCase().includes(word)))).map(([word]) => word)')))
    browser.script('const box = document.querySelector("input"); box.value = "minisign"; box.dispatchEvent(new Event("input"))')
    yield from compared(('words that are typed', True, browser.script(said).endswith(' sections:')))


def small_site():
    """The cases of the small repository."""
    with tempfile.TemporaryDirectory() as folder:
        top = pathlib.Path(folder)
        shutil.copytree(ROOT / 'packaging', top / 'packaging')
        for name, text in SMALL.items():
            (top / name).parent.mkdir(parents=True, exist_ok=True)
            (top / name).write_text(text, encoding='utf-8')
        ran = subprocess.run([sys.executable, top / 'packaging' / 'site.py'], capture_output=True, text=True)
        site = top / 'out' / 'site'
        told = (ran.returncode, ran.stdout, ran.stderr)
        yield from compared(
            ('a small site: what is told', (0, 'out/site: 6 pages\n',
                                            'site: there is no out/release/SHA256SUMS\nsite: there is no out/release/erd-1.2.3.spdx.json\n'), told),
            ('the files of a small site', [
                'CHANGELOG.html', 'contents.html', 'docs/GUIDE.html', 'docs/OTHER.html', 'erd-1.2.3-conformance.tar.gz', 'erd.html', 'examples/README.html',
                'examples/a.json', 'index.html', 'search.html', 'search.js', 'sections.js', 'style.css', 'web/fixes.es.html'],
             sorted(str(path.relative_to(site)) for path in site.rglob('*') if path.is_file())))
        if ran.returncode == 0:
            yield from small_pages({str(path.relative_to(site)): path.read_text(encoding='utf-8') for path in site.rglob('*') if path.is_file()})
        (top / 'docs' / 'OTHER.md').write_text('[nowhere](nowhere.md)')
        ran = subprocess.run([sys.executable, top / 'packaging' / 'site.py'], capture_output=True, text=True)
        yield from compared(('a small site: a link that leads nowhere', 'FileNotFoundError: docs/OTHER.md: nowhere.md', ran.stderr.strip().split('\n')[-1]),
                            ('the site of before stays', True, (site / 'index.html').exists()))


def small_pages(read):
    """What the pages of the small site have."""
    links = re.findall(r'<a href="([^"]*)">(.*?)</a>', read['index.html'].split('<main>')[1].split('</main>')[0])
    rows = re.findall(r'<li><a href="([^"]*)">(.*?)</a>(?:: (.*?))?</li>', read['contents.html'].split('<main>')[1].split('</main>')[0])
    guide = read['docs/GUIDE.html']
    navigation = guide.split('<nav id="pages"')[1].split('<h2>Files')[0]
    contents = guide.split('aria-label="On this page"')[1].split('</nav>')[0]
    sections = json.loads(read['sections.js'].removeprefix('const sections = ').rstrip(';\n'))
    yield from compared(
        ('a small site: its links', [('docs/GUIDE.html#one', 'the guide'), ('examples/a.json', 'a file'), ('examples/README.html', 'a folder'),
                                     ('index.html', 'another')], links),
        ('the page of all files and pages', [
            ('erd.html', 'erd.html', 'the page that checks and compares files in a browser'),
            ('erd-1.2.3-conformance.tar.gz', 'erd-1.2.3-conformance.tar.gz', 'the conformance suite, a folder for each case'),
            ('index.html', 'erd', 'README.md'), ('docs/GUIDE.html', 'The guide &amp; more', 'docs/GUIDE.md'),
            ('examples/README.html', 'Examples', 'examples/README.md'), ('web/fixes.es.html', 'Arreglos', 'web/fixes.es.md'),
            ('CHANGELOG.html', 'Changes', 'CHANGELOG.md'), ('docs/OTHER.html', 'docs/OTHER.md', 'docs/OTHER.md')], rows),
        ('the links of a page', ['../index.html', 'https://a.example/x.md'], re.findall(r'href="([^"]*)"', guide.split('id="two"')[1].split('</p>')[0])),
        ('the way to all pages', [
            ('../index.html', '', 'erd'), ('GUIDE.html', ' aria-current="page"', 'Guide'), ('../examples/README.html', '', 'Examples'),
            ('../web/fixes.es.html', '', 'Español'), ('../CHANGELOG.html', '', 'Changes')],
         re.findall(r'<a href="([^"]*)"( aria-current="page")?>([^<]*)</a>', navigation)),
        ('what stands on a page', [('2', 'one', 'One'), ('3', 'deep', 'Deep'), ('2', 'two', 'Two')],
         re.findall(r'<li class="h(.)"><a href="#([^"]*)">([^<]*)</a>', contents)),
        ('a page with two sections has no contents', False, 'On this page' in read['examples/README.html']),
        ('the languages', ['en', 'es'], [re.search('<html lang="(..)">', read[name])[1] for name in ('index.html', 'web/fixes.es.html')]),
        ('the titles', ['erd', 'The guide &amp; more', 'docs/OTHER.md', 'Everything here', 'Search'],
         [re.search('<title>(.*)</title>', read[name])[1] for name in ('index.html', 'docs/GUIDE.html', 'docs/OTHER.html', 'contents.html', 'search.html')]),
        ('the version and its day', {'erd 1.2.3 of 2031-02-03'},
         {re.search('<footer lang="en">(.*)</footer>', text)[1] for name, text in read.items() if name in HAVE_FOOT}),
        ('a table can be scrolled', 1, guide.count('<div class="wide"><table')),
        ('the files that were copied', ['{}', 'the page', 'the suite'],
         [read[name] for name in ('examples/a.json', 'erd.html', 'erd-1.2.3-conformance.tar.gz')]),
        ('what the search knows of a page', [
            {'page': 'docs/GUIDE.html', 'anchor': 'the-guide--more', 'text': '', 'weight': 4, 'title': 'The guide & more', 'heading': ''},
            {'page': 'docs/GUIDE.html', 'anchor': 'one', 'text': 'Words of one .', 'weight': 4, 'title': 'The guide & more', 'heading': 'One'},
            {'page': 'docs/GUIDE.html', 'anchor': 'deep', 'text': 'a b', 'weight': 4, 'title': 'The guide & more', 'heading': 'Deep'},
            {'page': 'docs/GUIDE.html', 'anchor': 'two', 'text': 'Up , the web .', 'weight': 4, 'title': 'The guide & more', 'heading': 'Two'}],
         [one for one in sections if one['page'] == 'docs/GUIDE.html']),
        ('what a page counts for that is in no group', [1], [one['weight'] for one in sections if one['page'] == 'docs/OTHER.html']))


HAVE_FOOT = ('index.html', 'docs/GUIDE.html', 'contents.html', 'search.html')


def compared(*rows):
    """Cases of what is wanted and what is found."""
    for name, wanted, found in rows:
        yield name, '' if wanted == found else f'{found} is there, and not {wanted}'


def cases():
    yield from small_site()
    ran = subprocess.run([sys.executable, ROOT / 'packaging' / 'site.py'], capture_output=True, text=True)
    yield 'the site is made', '' if ran.returncode == 0 else ran.stderr
    if ran.returncode == 0:
        pages = sorted(path for path in SITE.rglob('*.html') if path.name != 'erd.html')
        yield from (*links_that_fail(pages), *parts_that_lack(pages), *navigation(), *in_browser(pages))


def main():
    if not shutil.which('pandoc'):
        print('skipped the site: not installed: pandoc\n0 passed, 0 failed')
        return 0
    return tell(cases(), is_brief=True)


if __name__ == '__main__':
    sys.exit(main())
