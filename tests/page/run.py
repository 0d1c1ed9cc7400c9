"""Tries the page in one browser.

usage: run.py BROWSER PAGE OTHERS WORK PICTURES [PART ..]

BROWSER is Chromium or Firefox, PAGE the file of the page, and OTHERS a folder with pages that differ from it in a limit: `poor.html`
has less memory for the proved code, if it is there, and `short.html` knows no names of objects. WORK is a folder for
files of the test, and PICTURES one for pictures. With names of parts, only these are tried. The last line is 'N passed, M failed'.
"""
import os
import pathlib
import sys
import time

import accessibility
import ballots
import bounds
import browsers
import dead_ends
import filed
import flows
import growing
import hostile
import keyboard
import large
import lines
import many
import named
import network
import newcomer
import notices
import overview
import pictures
import prepared
import printed
import record
import results
import spanish
import top
import views
import voter
import xml_agree
import xml_form
from session import Session, report_of_units

KINDS = {kind.name: kind for kind in (browsers.Chromium, browsers.Firefox)}
PARTS = (flows, top, results, notices, lines, growing, voter, overview, ballots, printed, record, filed, prepared, dead_ends, many, newcomer, named, spanish, keyboard,
         hostile, bounds, large, xml_form, xml_agree, network, accessibility)
# The pictures for a person to look at are made where they are asked for by name.
DEFAULT = [part.__name__ for part in PARTS]
# A browser is west of Greenwich, and the other one is east of it.
ZONES = {'Chromium': 'America/St_Johns', 'Firefox': 'Asia/Kolkata'}
UNITS_OF_25_MB = 95_000


def main(name, page, others, work, pictures_folder, *names):
    downloads = pathlib.Path(work) / 'downloads'
    downloads.mkdir(parents=True, exist_ok=True)
    os.environ['TZ'] = ZONES[name]
    browser = KINDS[name](str(downloads))
    session = Session(browser, page, work, ZONES[name])
    session.large = report_of_units(session.work / 'large.json', UNITS_OF_25_MB)
    session.pictures = pathlib.Path(pictures_folder)
    session.others = {path.stem: path.resolve().as_uri() for path in pathlib.Path(others).glob('*.html')}
    try:
        browser.requests()
        for part in [part for part in (*PARTS, views) if part.__name__ in (names or DEFAULT)]:
            start = time.monotonic()
            session.part(part.run)
            print('        %s: %s took %d s' % (name, part.__name__, time.monotonic() - start), flush=True)
        if name == 'Chromium' and not names:
            session.part(lambda here: pictures.run(here, here.pictures))
    finally:
        browser.close()
    print('%d passed, %d failed' % (session.passed, session.failed))
    return 1 if session.failed else 0


if __name__ == '__main__':
    sys.exit(main(*sys.argv[1:]))
