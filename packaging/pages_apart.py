#!/usr/bin/env python3
"""Copies pages to a folder where the others are missing, with the pictures that they show: pages_apart.py [--beside NAME] .. FOLDER PAGE ..
A link to a page that is copied leads to it, and a link into a folder of this NAME stays, which then stands beside FOLDER. Of another link
into the repository the words alone stay, with the name of the page, as a reader of a release can look for it."""
import argparse
import os
import pathlib
import re
import shutil

LINK = re.compile(r'(!?)\[([^\]]*)\]\(([^)#]*)(#[^)]*)?\)')


class Apart:
    """The pages that are copied, the folders that stand beside them, and the pictures that they show."""

    def __init__(self, pages, beside):
        self.pages, self.beside, self.pictures = pages, beside, set()

    def text(self, page):
        """The text of a page, with the links that lead somewhere."""
        return LINK.sub(lambda found: self.link(page, *found.groups()), page.read_text(encoding='utf-8'))

    def link(self, page, mark, words, target, part):
        """A link of a page, as the copy has it."""
        place = pathlib.Path(os.path.normpath(page.parent / target))
        if mark:
            self.pictures.add(place)
            return '![%s](%s)' % (words, place.name)
        if not target or re.match(r'[a-z]+:', target) or place.parts[0] in self.beside:
            return '[%s](%s%s)' % (words, target, part or '')
        if place in self.pages:
            return '[%s](%s%s)' % (words, place.name, part or '')
        return '%s (`%s` of the source)' % (words.removesuffix('.md'), place)


def main():
    words = argparse.ArgumentParser()
    words.add_argument('--beside', action='append', default=[])
    words.add_argument('folder', type=pathlib.Path)
    words.add_argument('pages', nargs='+', type=pathlib.Path)
    asked = words.parse_args()
    apart = Apart(asked.pages, asked.beside)
    for page in asked.pages:
        (asked.folder / page.name).write_text(apart.text(page), encoding='utf-8')
    for picture in apart.pictures:
        shutil.copyfile(picture, asked.folder / picture.name)


if __name__ == '__main__':
    main()
