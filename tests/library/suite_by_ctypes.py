"""Runs the conformance suite through the C library: `suite_by_ctypes.py LIBRARY`. The lines of `erd_check` and `erd_compare` are
those of the suite, and so are the lines made from the answers of `erd_check_data` and `erd_compare_data`. The last line is
'N passed, M failed'."""
import importlib.machinery
import importlib.util
import json
import os
import sys
from typing import NamedTuple, Optional

from by_ctypes import Library, both
from cases import tell
from listed import ALL, bare, listed as list_of, worded
from texts_of_data import check_text, compact, compare_text, difference_line, differences_text, fault_line

FOLDER = os.path.join(os.path.dirname(os.path.abspath(__file__)), os.pardir, os.pardir, "conformance")


def suite_module():
    loader = importlib.machinery.SourceFileLoader("suite", os.path.join(FOLDER, "run"))
    module = importlib.util.module_from_spec(importlib.util.spec_from_loader("suite", loader))
    sys.dont_write_bytecode = True
    loader.exec_module(module)
    return module


def failure_of(library, suite, case):
    """What is wrong in a case, or None."""
    two = suite.contents(case, "compare.txt") is not None
    command, names = ("compare", ("left.json", "right.json")) if two else ("check", ("input.json",))
    lines = suite.contents(case, command + ".txt")
    status = (suite.status_of_compare if two else suite.status_of_check)(lines)
    prefer = suite.preference_of(case)[1:]
    try:
        answer = both(library, command, [suite.contents(case, name) for name in names],
                      prefer[0].encode() if prefer else None)
    except AssertionError as error:
        return str(error)
    if answer != (status, lines.decode()):
        return f"{command} answers {answer}"
    return failure_of_pieces(library, command, case, suite, prefer[0].encode() if prefer else None)


def failure_of_pieces(library, command, case, suite, prefer):
    """What is wrong in the answers with a piece of a list, held against the whole list, or None: each piece of one entry, the piece
    behind all, pieces that some bytes end, and the whole list in one; each as JSON and as lines."""
    if command == "check":
        reports = [suite.contents(case, "input.json")]
        outcome, text = library.check_data(*reports, prefer)
        wanted = json.loads(text)
        lists = [List("erd_check", reports, prefer, outcome, wanted, check_text(wanted))]
        if outcome != 0:
            lists.append(List("erd_canonical", reports, prefer, outcome, wanted, check_text(wanted)))
        why = failure_of_form(library, reports[0], prefer) if outcome == 0 else None
        return why or failure_of_words(library, reports, prefer, outcome, wanted) or failure_of_lists(library, lists)
    reports = [suite.contents(case, it) for it in ("left.json", "right.json")]
    outcome, text = library.compare_data(*reports, prefer)
    wanted = json.loads(text)
    found = library.piece("erd_differences_data", reports, prefer, 0, ALL, ALL)
    listed = json.loads(found[1])
    valued = library.piece("erd_differences_values", reports, prefer, 0, ALL, ALL)
    lines, entries = (suite.contents(case, name) for name in ("differences.txt", "entries.json"))
    if entries is not None and valued[1] != entries.decode():
        return f"the list with values is {valued[1]}"
    if (found[0], *found[2:], listed) != (valued[0], *valued[2:], without_values(json.loads(valued[1]))):
        return f"the list without values is {found}, and with them {valued}"
    if lines is not None and isinstance(listed, list) and differences_text(listed) != lines.decode():
        return f"the list of differences is {listed}"
    if isinstance(wanted, dict) and "refused" not in wanted and not begins_with(listed, wanted):
        return f"the list begins with {listed[:1]}, and not with {wanted}"
    text_of_list = differences_text(listed) if isinstance(listed, list) else compare_text(listed)
    return failure_of_entries(library, reports, prefer) \
        or failure_of_lists(library, [List("erd_compare", reports, prefer, outcome, wanted, compare_text(wanted)),
                                      List("erd_differences", reports, prefer, found[0], listed, text_of_list)])


def without_values(answer):
    """The list of differences without what each report has there. Why a report is refused stays."""
    return list(map(bare, answer)) if isinstance(answer, list) else answer


def begins_with(listed, difference):
    """Whether the first entry is this difference, but for what differs inside selections."""
    return bool(listed) and {name: value for name, value in listed[0].items() if name != "selections"} == difference


def failure_of_entries(library, reports, prefer):
    """What is wrong in the answers with a piece of the list of differences as data, with values and without, or None. What an entry has
    inside depends on the bounds of the piece, so the answers are held against those of the reference program."""
    found = list_of(*reports, None if prefer is None else prefer.decode())
    for name, has_values in (("erd_differences_data", False), ("erd_differences_values", True)) if found else ():
        for bounds in bounds_of([len(compact(data).encode()) for data in found.told(0, ALL, has_values)]):
            answer, wanted = library.piece(name, reports, prefer, *bounds), found.piece(*bounds, has_values)
            if answer != wanted:
                return f"{name} of {bounds}: {answer}, and not {wanted}"
    return None


def failure_of_words(library, reports, prefer, outcome, judged):
    """What is wrong in the list of what ballots print, held against that of the reference program, or None. A refused report has the
    list of its faults."""
    wanted = worded(*reports, None if prefer is None else prefer.decode()) if outcome == 0 else judged
    it = List("erd_words", reports, prefer, outcome, wanted, "")
    sorted_text = lambda value: compact(json.loads(json.dumps(value, sort_keys=True)))  # noqa: E731
    return failure_of_list(library, it, it.call, sorted_text, lambda text, shown: text == sorted_text(it.json_of(shown)))


def failure_of_form(library, report, prefer):
    """What is wrong in the canonical form of an accepted report, where a piece of a list is asked for, or None."""
    form = (*library.canonical(report, prefer), 0, 0)
    for name in ("erd_canonical_piece", "erd_canonical_data_piece"):
        if library.piece(name, [report], prefer, 0, 0, 0) != form:
            return f"{name} has another form"
    return None


class List(NamedTuple):
    """A call, and what it answers: the value with the whole list, and the text of all lines."""
    call: str
    reports: list
    prefer: Optional[bytes]
    outcome: int
    wanted: object
    text: str

    def line_of(self, entry):
        """The line of an entry, with its side in front."""
        if "reason" not in entry:
            return difference_line(entry) + "\n"
        side = f"{self.wanted['refused']}: " if isinstance(self.wanted, dict) else ""
        return side + fault_line(entry) + "\n"

    def json_of(self, shown):
        return with_entries(self.wanted, shown)

    def lines_of(self, shown):
        return "".join(map(self.line_of, shown)) if entries_in(self.wanted) else self.text


def failure_of_lists(library, lists):
    """What is wrong in the first of these lists that is not as it should be, or None."""
    for it in lists:
        data = "erd_differences_data" if it.call == "erd_differences" else f"{it.call}_data_piece"
        lines = it.call if it.call == "erd_differences" else f"{it.call}_piece"
        why = failure_of_list(library, it, lines, it.line_of, lambda text, shown: text == it.lines_of(shown))
        # what an entry of the other list has inside depends on the piece
        if why is None and not (it.call == "erd_differences" and isinstance(it.wanted, list)):
            why = failure_of_list(library, it, data, lambda entry: compact(json.loads(json.dumps(entry, sort_keys=True))),
                                  lambda text, shown: json.loads(text) == it.json_of(shown))
        if why:
            return why
    return None


def entries_in(value):
    """The list in an answer; empty if it has none."""
    inner = value.get("faults", None) if isinstance(value, dict) else value
    return inner if isinstance(inner, list) else []


def with_entries(value, entries):
    """The answer with this list in place of its own."""
    if not isinstance(value, dict) or not isinstance(value.get("faults"), list):
        return entries if isinstance(value, list) else value
    return {**value, "faults": entries}


def failure_of_list(library, it, name, text_of_entry, is_right):
    entries = entries_in(it.wanted)
    sizes = [len(text_of_entry(entry).encode()) for entry in entries]
    for first, most, enough in bounds_of(sizes):
        shown = []
        while len(shown) < most and first + len(shown) < len(entries) and sum(sizes[first:first + len(shown)]) < enough:
            shown.append(entries[first + len(shown)])
        found, text, told, count = library.piece(name, it.reports, it.prefer, first, most, enough)
        if (found, told, count) != (it.outcome, len(shown), len(entries)) or not is_right(text, shown):
            return f"{name} of {first}, {most}, {enough}: {found} {text[:200]} {told} {count}"
    return failure_of_opened(library, it, name, sizes, is_right)


def failure_of_opened(library, it, name, sizes, is_right):
    """What is wrong in the pieces that the opened list hands out, or None. They are those of the call, one behind the other."""
    entries = entries_in(it.wanted)
    for most, enough, room in ((1, ALL, 0), (2, ALL, 0), (ALL, sum(sizes[:2]), 0), (ALL, 1, 1), (2, ALL, sum(sizes[:3])), (ALL, ALL, 0)):
        first = 0
        for found, text, before, told, count in library.opened(name, it.reports, it.prefer, most, enough, room):
            shown = entries[first:first + told]
            is_end = text is None and told == 0 and first == len(entries)
            fits = told <= most and (told == 0 or sum(sizes[first:first + told - 1]) < enough)
            if (found, before, count) != (it.outcome, first, len(entries)) or not fits or not (is_end or is_right(text, shown)):
                return f"{name} opened, {most}, {enough}, {room}: {found} {text} {before} {told} {count}"
            if told == 0 and first < len(entries):
                return f"{name} opened, {most}, {enough}, {room}: ends behind {first} entries of {len(entries)}"
            first += told
    return None


def bounds_of(sizes):
    """The first, the most and enough bytes of pieces of a list whose entries have these sizes."""
    for first in sorted({0, 1, 2, len(sizes) - 1, len(sizes), len(sizes) + 1, ALL} - {-1}):
        for most in (0, 1, 2, ALL):
            for enough in (0, 1, sum(sizes[first:first + 2]), sum(sizes[first:first + 2]) + 1, ALL):
                yield first, most, enough


def main():
    library, suite = Library(sys.argv[1]), suite_module()
    return tell(((os.path.basename(case), failure_of(library, suite, case)) for case in suite.cases_of(suite.suite())), is_brief=True)


sys.exit(main())
