"""Many files at once: a table of verdicts and groups, which is sorted, saved and printed; any two files are compared."""
import base64
import csv
import io
import json

import answers
from flows import DROP, pages_of
from session import EXAMPLES, sha256

NAMES = ('county.vendor-a.json', 'county.vendor-b.json', 'one-unit.json', 'state-primary.raw.json')

ROWS = "return [...document.querySelectorAll('#many-files tbody tr')].map((row) => [...row.children].slice(0, 4).map((cell) => cell.textContent))"


def run(session):
    table(session)
    sorting(session)
    saved(session)
    compared(session)
    dropped(session)
    folder(session)
    printed(session)


def chosen(session, *paths):
    session.fresh()
    session.choose(0, *paths)
    waited(session)


def waited(session):
    session.browser.until("return document.documentElement.dataset.busy === 'no' && document.querySelector('#many-files tbody tr') !== null")


def table(session):
    """Four files: two of them mean the same, one is refused."""
    chosen(session, *(EXAMPLES / name for name in NAMES))
    rows = {row[0]: row[2:] for row in session.browser.script(ROWS)}
    session.equal('many: the groups', [rows[name] for name in NAMES[:3]],
                  [['Accepted', '1: 2 files mean the same'], ['Accepted', '1: 2 files mean the same'], ['Accepted', '2: alone']])
    faults = answers.Program().run(None, 'check', EXAMPLES / NAMES[3])[1].splitlines()
    session.equal('many: a refused file', rows[NAMES[3]], ['Refused: %d faults' % len(faults), ''])
    session.equal('many: a screen reader is told', session.text('#announcement'), '3 of 4 are accepted. They have 2 meanings.')


def sorting(session):
    """By size, and the other way round."""
    sizes = sorted(NAMES, key=lambda name: (EXAMPLES / name).stat().st_size)
    for wanted, how in ((sizes, 'ascending'), (sizes[::-1], 'descending')):
        session.browser.script("document.querySelectorAll('#many-files thead button')[1].click()")
        session.equal('many: by size, ' + how, [row[0] for row in session.browser.script(ROWS)], wanted)
        session.equal('many: it says so, ' + how, session.browser.script("return document.querySelectorAll('#many-files th')[1].ariaSort"), how)


def saved(session):
    """The table as CSV, with the whole sums."""
    (session.work / 'downloads' / 'ballots.csv').unlink(missing_ok=True)
    session.browser.script("[...document.querySelectorAll('#many-files .buttons button')].at(-1).click()")
    rows = {row['file']: row for row in csv.DictReader(io.StringIO(session.downloaded('ballots.csv').decode(), newline=''))}
    session.equal('many: the files of the CSV', sorted(rows), sorted(NAMES))
    session.equal('many: the sums of the CSV', [rows[name]['sha256'] for name in NAMES], [sha256((EXAMPLES / name).read_bytes()) for name in NAMES])
    session.equal('many: a form of the CSV', rows[NAMES[0]]['canonical_sha256'], sha256((EXAMPLES / 'county.canonical.json').read_bytes()))


def compared(session):
    """Two files of the table are compared, and the table stays."""
    for name in NAMES[:2]:
        session.browser.script("""
            [...document.querySelectorAll('#many-files tbody tr')].find((row) => row.firstChild.textContent === arguments[0]).querySelector('button').click()""", name)
    session.becomes('many: two of them', session.verdict, 'These two files define the same ballots')
    session.equal('many: the first one is the left one', session.texts('.slot .name bdi'), list(NAMES[:2]))
    session.equal('many: the table stays', len(session.browser.script(ROWS)), 4)


def dropped(session):
    """More than two files are dropped. Each is judged, whatever its name; a name can't be a formula."""
    one = json.loads((EXAMPLES / 'one-unit.json').read_text(encoding='utf-8'))
    files = [{'name': name, 'data': json.dumps(one)} for name in ('=1+1.json', 'b.json', 'c.JSON', 'notes.txt')]
    session.fresh()
    session.browser.script(DROP, files, 'body')
    waited(session)
    session.equal('many: dropped', [row[0] for row in session.browser.script(ROWS)], ['=1+1.json', 'b.json', 'c.JSON', 'notes.txt'])
    (session.work / 'downloads' / 'ballots.csv').unlink(missing_ok=True)
    session.browser.script("[...document.querySelectorAll('#many-files .buttons button')].at(-1).click()")
    session.said('many: no formula', '' if b"\n'=1+1.json," in session.downloaded('ballots.csv') else 'a formula')


# No test can drop a folder in Firefox: its entries are made up, and told a hundred at a time, as browsers do. With no names, reading it
# fails.
DROP_FOLDER = """
    const fileOf = (name, path) => ({ isDirectory: false, name, fullPath: path, file: (take) => take(new File([arguments[0]], name)) });
    const folderOf = (name, path, names) => {
        const waiting = Object.entries(names ?? {}).map(([inner, below]) => (below === null ? fileOf(inner, `${path}/${inner}`)
            : folderOf(inner, `${path}/${inner}`, below)));
        return { isDirectory: true, name, fullPath: path, createReader: () => ({
            readEntries: (take, fail) => setTimeout(() => (names === null ? fail(new Error('x')) : take(waiting.splice(0, 100)))) }) };
    };
    const [, [name, names]] = arguments;
    const transfer = new DataTransfer();
    transfer.items.add(new File([''], name));
    DataTransferItem.prototype.webkitGetAsEntry = () => folderOf(name, `/${name}`, names);
    delete DataTransferItem.prototype.getAsFileSystemHandle;
    document.body.dispatchEvent(new DragEvent('drop', { dataTransfer: transfer, bubbles: true, cancelable: true }));"""


def folder(session):
    """A folder is dropped. In it are a note, names in capitals and of XML, and a folder with more files than a browser tells at once."""
    one = (EXAMPLES / 'one-unit.json').read_text(encoding='utf-8')
    names = [f'ballot-{number:03}.json' for number in range(101)]
    top = session.work / 'dropped'
    (top / 'inner').mkdir(parents=True)
    for name in ['SECOND.JSON', 'first.json', 'notes.txt', 'third.xml', *(f'inner/{name}' for name in names)]:
        (top / name).write_text(one, encoding='utf-8')
    session.fresh()
    if session.browser.name == 'Chromium':
        for kind in ('dragEnter', 'dragOver', 'drop'):
            session.browser.devtools('Input.dispatchDragEvent', type=kind, x=500, y=300,
                                     data={'items': [], 'files': [str(top)], 'dragOperationsMask': 1})
    else:
        session.browser.script(DROP_FOLDER, one, ['dropped', {'SECOND.JSON': None, 'first.json': None, 'notes.txt': None, 'third.xml': None, 'inner': dict.fromkeys(names)}])
    waited(session)
    rows = session.browser.script(ROWS)
    session.equal('many: a folder dropped', sorted(row[0] for row in rows),
                  ['dropped/SECOND.JSON', 'dropped/first.json', *(f'dropped/inner/{name}' for name in names), 'dropped/notes.txt', 'dropped/third.xml'])
    session.equal('many: all of it means the same', {row[3] for row in rows if row[0] != 'dropped/notes.txt'}, {'1: 104 files mean the same'})
    session.equal('many: what is left out is named', [row[2:] for row in rows if row[0].endswith('.txt')],
                  [['Left out: its name does not end in .json or .xml', '']])
    session.has('many: it is counted', session.text('.many > p'), '1 file of a folder is left out, since its name does not end in .json or .xml.')
    session.fresh()
    session.browser.script(DROP_FOLDER, one, ['broken', None])
    session.becomes('many: a folder that is not read', lambda: session.text('#files-message'),
                    'This browser could not read the folder. Choose it by its button instead.')


def printed(session):
    """The table is printed, by its button and by the browser's own command."""
    chosen(session, *(EXAMPLES / name for name in NAMES))
    session.said('many: printed by the browser', '' if printed_text(session).count('Accepted') == 3 else 'not the table')
    session.browser.script('window.print = () => { window.printed = true; }')
    session.click('#many-files .buttons button')
    session.equal('many: the button prints', session.browser.script('return [window.printed, document.documentElement.dataset.print]'), [True, 'many'])
    session.equal('many: on one page', pages_of(base64.b64decode(session.browser.command('print'))), 1)
    session.browser.script("dispatchEvent(new Event('afterprint'))")


def printed_text(session):
    """The text of what is shown for print."""
    session.browser.medium('print')
    text = session.browser.script('return document.body.innerText')
    session.browser.medium('')
    return text
