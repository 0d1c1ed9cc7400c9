#!/usr/bin/env python3
"""Makes the site in out/site: each page of the repository as plain HTML with the way to all others, its contents, the version and the day; and a
search that needs no server. The page for a browser, the conformance suite and the sums of a release come with it where they have been made. It
needs Debian's package pandoc, and no proof.

usage: site.py

`docs/` and the other pages stay the source. A link to a page leads to its HTML, and a file that a page names is copied.
"""
import html
import html.parser
import json
import os
import pathlib
import re
import shutil
import subprocess
import sys

ROOT = pathlib.Path(__file__).resolve().parent.parent
SITE = ROOT / 'out' / 'site'
NEW = ROOT / 'out' / 'site.new'
PARTS = ROOT / 'packaging' / 'site'
# For whom pages are, how much what they say counts in the search, and the pages with their words in the navigation.
GROUPS = (
    ('Officials and vendors', 4, {
        'README.md': 'erd', 'docs/GUIDE.md': 'Guide', 'docs/FIXES.md': 'Fix a refused file', 'docs/INSTALL.md': 'Get it',
        'docs/VENDORS.md': 'Letter to the vendor', 'docs/PROFILE.md': 'The rules', 'docs/LIMITS.md': 'Time, memory, untrusted files',
        'SECURITY.md': 'Security', 'examples/README.md': 'Examples', 'web/fixes.es.md': 'Español'}),
    ('Readers of the proof', 2, {'docs/TRUST.md': 'What is proved', 'docs/DEFINITIONS.md': 'Definitions', 'docs/DECISIONS.md': 'Decisions'}),
    ('Authors of programs', 2, {
        'docs/API.md': 'Call erd', 'bindings/js/README.md': 'JavaScript', 'bindings/python/README.md': 'Python',
        'conformance/README.md': 'Conformance'}),
    ('Contributors', 1, {'CONTRIBUTING.md': 'Contribute', 'docs/MEASUREMENTS.md': 'Measurements', 'CHANGELOG.md': 'Changes'}),
)
LEFT_OUT = ('third_party/', 'crates/', 'bindings/python/src')


def pages():
    """The pages of the repository, those of the groups first: those that git knows, or in a copy without git all that are not made."""
    words = ['git', 'ls-files', '--cached', '--others', '--exclude-standard', '*.md']
    if (ROOT / '.git').exists():
        listed = subprocess.run(words, cwd=ROOT, capture_output=True, text=True, check=True).stdout.split('\n')
    else:
        places = [path.relative_to(ROOT) for path in ROOT.rglob('*.md')]
        listed = [str(place) for place in places if not {'out', 'node_modules'} & set(place.parts)]
    there = {name for name in listed if name and not name.startswith(LEFT_OUT) and (ROOT / name).exists()}
    named = [name for _, _, group in GROUPS for name in group if name in there]
    return [pathlib.PurePosixPath(name) for name in named + sorted(there - set(named))]


def html_of(page):
    """Where the HTML of a page stands in the site."""
    return pathlib.PurePosixPath('index.html') if str(page) == 'README.md' else page.with_suffix('.html')


def relative(place, page):
    """A link from the HTML of a page to a place in the site."""
    return os.path.relpath(place, html_of(page).parent)


def link_from(page, target, known):
    """The link of a page as it is in the site. A file of the repository is copied there."""
    if re.match(r'[a-z]+:|#', target):
        return target
    name, sharp, anchor = target.partition('#')
    place = pathlib.PurePosixPath(os.path.normpath(page.parent / name))
    if place in known:
        return relative(html_of(place), page) + sharp + anchor
    source = ROOT / place
    if source.is_file():
        (NEW / place).parent.mkdir(parents=True, exist_ok=True)
        shutil.copy(source, NEW / place)
    elif not source.is_dir():
        raise FileNotFoundError('%s: %s' % (page, target))
    return relative(place, page) if source.is_file() else relative(html_of(known_below(place, known)), page)


def known_below(folder, known):
    """The page that describes a folder."""
    for page in known:
        if page.parent == folder and page.name == 'README.md':
            return page
    return pathlib.PurePosixPath('README.md')


def body_of(page, known):
    """The HTML of a page, with the links of the site and with tables that can be scrolled."""
    words = ['pandoc', '--from', 'gfm', '--to', 'html5', '--no-highlight', '--wrap=none', str(ROOT / page)]
    made = subprocess.run(words, capture_output=True, text=True, check=True).stdout
    made = re.sub(r'(href|src)="([^"]*)"',
                  lambda found: '%s="%s"' % (found.group(1), html.escape(link_from(page, html.unescape(found.group(2)), known))), made)
    return made.replace('<table', '<div class="wide"><table').replace('</table>', '</table></div>')


def contents_of(body):
    """The contents of a page that has more than two sections: its headings of the second and third rank."""
    found = re.findall(r'<h([23]) id="([^"]*)">(.*?)</h\1>', body, re.S)
    rows = ''.join('<li class="h%s"><a href="#%s">%s</a></li>' % (rank, anchor, re.sub('<[^>]*>', '', words)) for rank, anchor, words in found)
    return '<nav class="contents" aria-label="On this page"><h2>On this page</h2><ul>%s</ul></nav>\n' % rows if len(found) > 2 else ''


def navigation(place, known):
    """The links to all pages, from a place of the site."""
    made = ''
    for words, _, group in GROUPS:
        made += '<h2>%s</h2><ul>' % words
        for name in (pathlib.PurePosixPath(name) for name in group):
            if name in known:
                here = ' aria-current="page"' if html_of(name) == place else ''
                made += '<li><a href="%s"%s>%s</a></li>' % (html.escape(os.path.relpath(html_of(name), place.parent)), here, html.escape(group[str(name)]))
        made += '</ul>'
    return made


def version_and_day():
    """The version with its day, and the day of the last change where git knows it."""
    version = (ROOT / 'VERSION').read_text(encoding='utf-8').strip()
    day = re.search(r'^## %s - (.*)$' % re.escape(version), (ROOT / 'CHANGELOG.md').read_text(encoding='utf-8'), re.M).group(1)
    changed = subprocess.run(['git', 'log', '-1', '--format=%cs'], cwd=ROOT, capture_output=True, text=True, check=False).stdout.strip()
    return 'erd %s of %s%s' % (version, day, '; these pages were last changed on %s' % changed if changed else '')


def whole(place, title, body, known, below=''):
    """A page of the site."""
    def there(name):
        return html.escape(os.path.relpath(name, place.parent))

    language = 'es' if place.name.endswith('.es.html') else 'en'
    return ('<!DOCTYPE html>\n<html lang="%s">\n<head>\n<meta charset="utf-8">\n'
            '<meta name="viewport" content="width=device-width, initial-scale=1">\n<title>%s</title>\n'
            '<link rel="stylesheet" href="%s">\n</head>\n<body>\n<header><a class="home" href="%s">erd</a> <a class="to-pages" href="#pages">All pages</a>\n'
            '<form action="%s"><label>Search <input name="words" type="search"></label></form></header>\n<div class="columns">\n'
            '<main>\n%s%s\n</main>\n<nav id="pages" lang="en" aria-label="All pages">%s<h2>Files</h2><ul><li><a href="%s">Everything here</a></li></ul></nav>\n'
            '</div>\n<footer lang="en">%s</footer>\n%s</body>\n</html>\n') % (
                language, html.escape(title), there('style.css'), there('index.html'), there('search.html'), contents_of(body), body,
                navigation(place, known), there('contents.html'), html.escape(version_and_day()), below)


class Sections(html.parser.HTMLParser):
    """The sections of a page: the anchor, the heading and the text of each."""

    def __init__(self):
        super().__init__()
        self.found = [{'anchor': '', 'heading': '', 'text': ''}]
        self.is_heading = False

    def handle_starttag(self, tag, attributes):
        if re.fullmatch('h[1-6]', tag):
            self.found.append({'anchor': dict(attributes).get('id') or '', 'heading': '', 'text': ''})
            self.is_heading = True

    def handle_endtag(self, tag):
        self.is_heading = self.is_heading and not re.fullmatch('h[1-6]', tag)
        self.handle_data(' ')

    def handle_data(self, data):
        self.found[-1]['heading' if self.is_heading else 'text'] += data


def sections_of(page, title, body):
    """What the search has of a page."""
    reader = Sections()
    reader.feed(body)
    weight = next((weight for _, weight, group in GROUPS if str(page) in group), 1)
    for found in reader.found:
        text, heading = (' '.join(found[name].split()) for name in ('text', 'heading'))
        if text or heading:
            yield {'page': str(html_of(page)), 'anchor': found['anchor'], 'text': text, 'weight': weight, 'title': title,
                   'heading': '' if heading == title else heading}


def title_of(page):
    """The first heading of a page."""
    found = re.search(r'^# (.*)$', (ROOT / page).read_text(encoding='utf-8'), re.M)
    return found.group(1).replace('`', '') if found else str(page)


def write(place, text):
    (NEW / place).parent.mkdir(parents=True, exist_ok=True)
    (NEW / place).write_text(text, encoding='utf-8')


def files():
    """The files beside the pages: each with what it is. What has not been made is told on standard error."""
    version = (ROOT / 'VERSION').read_text(encoding='utf-8').strip()
    wanted = [('portable/erd.html', 'erd.html', 'the page that checks and compares files in a browser'),
              ('erd-%s-conformance.tar.gz' % version, None, 'the conformance suite, a folder for each case'),
              ('release/SHA256SUMS', None, 'the sums of the release'),
              ('release/erd-%s.spdx.json' % version, None, 'its bill of materials')]
    for source, name, words in wanted:
        path = ROOT / 'out' / source
        if path.exists():
            shutil.copy(path, NEW / (name or path.name))
            yield name or path.name, words
        else:
            print('site: there is no out/%s' % source, file=sys.stderr)


def contents(known):
    """The page that lists all others."""
    rows = ''.join('<li><a href="%s">%s</a>: %s</li>' % (html_of(page), html.escape(title_of(page)), page) for page in known)
    made = ''.join('<li><a href="%s">%s</a>: %s</li>' % (name, name, words) for name, words in files())
    return '<h1>Everything here</h1>\n<h2>Files</h2>\n<ul>%s</ul>\n<h2>Pages</h2>\n<ul>%s</ul>' % (made, rows)


def main():
    if shutil.which('pandoc') is None:
        print('site: there is no pandoc; install the package pandoc', file=sys.stderr)
        return 1
    shutil.rmtree(NEW, ignore_errors=True)
    NEW.mkdir(parents=True)
    known, found = pages(), []
    for page in known:
        title, body = title_of(page), body_of(page, known)
        write(html_of(page), whole(html_of(page), title, body, known))
        found += sections_of(page, title, body)
    write('contents.html', whole(pathlib.PurePosixPath('contents.html'), 'Everything here', contents(known), known))
    write('search.html', whole(pathlib.PurePosixPath('search.html'), 'Search', '<h1>Search</h1>\n<p id="count" role="status"></p>\n<ol id="found"></ol>',
                               known, '<script src="sections.js"></script>\n<script src="search.js"></script>\n'))
    write('sections.js', 'const sections = %s;\n' % json.dumps(found, ensure_ascii=False, indent=0))
    for name in ('style.css', 'search.js'):
        shutil.copy(PARTS / name, NEW / name)
    shutil.rmtree(SITE, ignore_errors=True)
    NEW.rename(SITE)
    print('out/site: %d pages' % len(known))
    return 0


if __name__ == '__main__':
    sys.exit(main())
