"""Checks the rows of two ballots beside each other. Several lists of rows are right, as it is open which of two lines that have changed
places has moved. So the rows are held against what the definitions ask of each: crates/erd_shown/specs has them in Rows.antt,
RowData.antt and SelectionRows.antt. Beyond these, no more may have moved than has to."""
import bisect
import collections

from erd_ballots import compact_text, name_data

# The rows that have a line of the left ballot in its order, and those that have one of the right ballot.
OF_LEFT, OF_RIGHT = ('both', 'removed', 'moved away'), ('both', 'added', 'moved here')


def occurrences(things):
    """Each thing with the number of times that it stands before."""
    before = collections.Counter()
    for thing in things:
        yield thing, before[thing]
        before[thing] += 1


def partners(ones, others):
    """For each thing of the first list, the position of the same occurrence of it in the second list, or None."""
    places = {occurrence: position for position, occurrence in enumerate(occurrences(others))}
    return [places.get(occurrence) for occurrence in occurrences(ones)]


def longest_rising(numbers):
    """How many of the numbers, all different, can be left so that they rise. For each length this keeps the least last number."""
    ends = []
    for number in numbers:
        at = bisect.bisect_left(ends, number)
        ends[at:at + 1] = [number]
    return len(ends)


def failure_of_rows(rows, ones, others):
    """What is wrong in rows, each of which is a kind and two positions, or None. The lists have what each line of either ballot is."""
    there, back = partners(ones, others), partners(others, ones)
    lefts = [left for how, left, _ in rows if how in OF_LEFT]
    rights = [right for how, _, right in rows if how in OF_RIGHT]
    if len(rows) != sum(how in OF_LEFT or how in OF_RIGHT for how, _, _ in rows):
        return 'a row of another kind'
    if lefts != list(range(len(ones))) or rights != list(range(len(others))):
        return f'the left rows have the lines {lefts} of {len(ones)}, and the right ones {rights} of {len(others)}'
    for how, left, right in rows:
        wanted = (left, there[left]) if how in OF_LEFT else (back[right], right)
        if (left, right) != wanted or (None in wanted) != (how in ('removed', 'added')):
            return f'a row tells {how} of {left} and {right}, where {wanted} is one line'
    paired = [place for place in there if place is not None]
    moved, needed = sum(how == 'moved here' for how, _, _ in rows), len(paired) - longest_rising(paired)
    return None if moved == needed else f'{moved} have moved, where {needed} have to'


def placed(rows, ones, others):
    """Rows of selections with positions, which their order gives. A row that has another name, or stands behind the last, is given none."""
    there, back = partners(ones, others), partners(others, ones)
    left = right = 0
    for row in rows:
        how, name = row['how'], compact_text(row['name'])
        at_left = left if how in OF_LEFT and ones[left:left + 1] == [name] else None
        at_right = right if how in OF_RIGHT and others[right:right + 1] == [name] else None
        left, right = left + (how in OF_LEFT), right + (how in OF_RIGHT)
        if how == 'moved away' and at_left is not None:
            at_right = there[at_left]
        if how == 'moved here' and at_right is not None:
            at_left = back[at_right]
        yield how, at_left, at_right


def failure_of_selections(rows, left, one, right, other):
    """What is wrong in the rows of the selections of a line of both ballots, or None. Names rise where a ballot lists none."""
    if any(set(row) != {'how', 'name'} for row in rows):
        return f'other members: {rows}'
    ones, others = left.names(one), right.names(other)
    if not (left.is_listed(one) and right.is_listed(other)):
        ones, others = sorted(ones), sorted(others)
    ones, others = ([compact_text(name_data(name)) for name in names] for names in (ones, others))
    return failure_of_rows(list(placed(rows, ones, others)), ones, others)


def failure_of_beside(told, left, one, right, other):
    """What is wrong in what is told of the ballots of two styles beside each other, or None."""
    if set(told) != {'left', 'right', 'rows'}:
        return f'members: {sorted(told)}'
    for name, side, style in (('left', left, one), ('right', right, other)):
        if compact_text(told[name]) != compact_text(side.lines_data(style)):
            return f'the {name} lines: {told[name]}\nreference:\n{side.lines_data(style)}'
    ones, others = left.lines(one), right.lines(other)
    if any(set(row) != {'how', 'left', 'right', 'selections'} for row in told['rows']):
        return 'a row has other members'
    why = failure_of_rows([(row['how'], row['left'], row['right']) for row in told['rows']], list(map(left.thing, ones)), list(map(right.thing, others)))
    return why or next(filter(None, (failure_inside(row, left, ones, right, others) for row in told['rows'])), None)


def failure_inside(row, left, ones, right, others):
    """What is wrong in the selections of a right row, or None. 'Those of a line that moved stand where it is now.'"""
    if row['how'] not in ('both', 'moved here'):
        return f'a row that tells {row["how"]} has selections' if row['selections'] else None
    why = failure_of_selections(row['selections'], left, ones[row['left']], right, others[row['right']])
    return f'inside {row["left"]} and {row["right"]}: {why}' if why else None
