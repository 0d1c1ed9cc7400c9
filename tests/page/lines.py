"""What the page tells of the lines of a ballot where the same words stand in several contests: in the list, the record and the
ballot, a lost line is told as lost, with its contest."""
from made import candidate_contest, listed, measure, report, style, written

WHOLE = ['S: Ann Bo W', 'B: Cy Di W', 'M: Yes No', 'J: Yes No']

MARKS = """
    return [...document.querySelectorAll('#ballots .ballot :is(.contest, .selection) > .ballot-mark')].map((mark) => {
        const holder = mark.parentElement;
        const contest = holder.closest('.contest').querySelector('.line-title').textContent;
        return [contest, holder.classList.contains('selection') ? holder.querySelector('p').textContent : '', mark.textContent];
    });"""

# Of each case: what is listed, what the first difference and the record say, and the marks of the ballot.
CASES = {
    'a lost yes': (
        ['S: Ann Bo W', 'B: Cy Di W', 'M: No', 'J: No Yes'],
        ['Changed: Contest “Measure 2” (local-level M)', 'Removed: Selection: “Yes”', 'Changed: Contest “Judge” (local-level J)',
         'Moved to another place: Selection: “Yes”'],
        [['Measure 2', 'Yes', 'removed'], ['Judge', 'Yes', 'moved from 1 to 2']]),
    'a lost write-in': (
        ['S: Ann Bo', 'B: Cy Di W', 'M: Yes No', 'J: Yes No'],
        ['Changed: Contest “Sheriff” (local-level S)', 'Removed: Selection: write-in'],
        [['Sheriff', 'Write-in', 'removed']]),
    'a contest that moves': (
        ['M: Yes No', 'S: Ann Bo W', 'B: Cy Di W', 'J: Yes No'],
        ['Moved to another place: Contest “Measure 2” (local-level M)'],
        [['Measure 2', '', 'moved from 3 to 1']]),
}


def made(lines):
    contests = [candidate_contest('S', 'Sheriff', 'Ann', 'Bo'), candidate_contest('B', 'Board of Education', 'Cy', 'Di'), measure('M', 'Measure 2'), measure('J', 'Judge')]
    return report(contests, [style('BS-1', [listed(line) for line in lines])])


def run(session):
    for name, (lines, told, marks) in CASES.items():
        session.judged(written(session, 'left.json', made(WHOLE)), written(session, 'right.json', made(lines)))
        session.open_details()
        session.equal(f'lines: {name}, the first difference', session.texts('[aria-labelledby="first-difference"] .inside > li'), told)
        session.equal(f'lines: {name}, the record', session.texts('[data-filed] li > div'), told)
        session.equal(f'lines: {name}, the ballot', session.browser.script(MARKS), marks)
