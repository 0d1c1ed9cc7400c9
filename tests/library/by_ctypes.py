"""Calls the C library by ctypes, as the program would be called: `by_ctypes.py LIBRARY CASES`. Each line of the file CASES is a
command, a preferred type or nothing, and files, with tabs between them. For each it writes the outcome, a blank, and the text
as a JSON string. The answers as data are held against the texts."""
import ctypes
import json
import pathlib
import sys

sys.path.insert(0, str(pathlib.Path(__file__).resolve().parents[1] / 'shared'))
from texts_of_data import check_text, compact, compare_text  # noqa: E402

TEXTLESS = 3
# The calls whose lists can be opened, by their numbers in `enum erd_listing`.
LISTINGS = ("erd_check_piece", "erd_canonical_piece", "erd_compare_piece", "erd_differences", "erd_check_data_piece",
            "erd_canonical_data_piece", "erd_compare_data_piece", "erd_differences_data", "erd_differences_values", "erd_words")


class Piece(ctypes.Structure):
    """`struct erd_piece`."""
    _fields_ = [(name, ctypes.c_size_t) for name in ("first", "most", "enough_bytes", "told", "all")]


class Library:
    """The calls of the library at a path. Each takes the bytes of its reports and a preferred type of identifier or None, and
    returns the outcome and the text, or None where there is none. Some calls for ballots take positions too."""

    def __init__(self, path):
        self.library = ctypes.CDLL(path)
        self.library.erd_free.argtypes = [ctypes.c_void_p]
        self.library.erd_free.restype = None

    def call(self, name, reports, prefer, *positions):
        call = getattr(self.library, name)
        call.argtypes = [ctypes.c_char_p, ctypes.c_size_t] * len(reports) + [
            ctypes.c_char_p, *[ctypes.c_size_t] * len(positions), ctypes.POINTER(ctypes.c_void_p), ctypes.POINTER(ctypes.c_size_t)]
        given = [part for report in reports for part in (report, len(report))]
        text, length = ctypes.c_void_p(), ctypes.c_size_t()
        outcome = call(*given, prefer, *positions, ctypes.byref(text), ctypes.byref(length))
        found = ctypes.string_at(text, length.value).decode() if text else None
        self.library.erd_free(text)
        assert (found is None) == (outcome >= TEXTLESS), f"outcome {outcome} with the text {found!r}"
        return outcome, found

    def canonical(self, report, prefer=None):
        return self.call("erd_canonical", [report], prefer)

    def check(self, report, prefer=None):
        return self.call("erd_check", [report], prefer)

    def compare(self, left, right, prefer=None):
        return self.call("erd_compare", [left, right], prefer)

    def check_data(self, report, prefer=None):
        return self.call("erd_check_data", [report], prefer)

    def compare_data(self, left, right, prefer=None):
        return self.call("erd_compare_data", [left, right], prefer)

    def piece(self, name, reports, prefer, first, most, enough_bytes):
        """The outcome and the text of a call for a piece, and what it tells: how many entries the text has, and how many the list
        has."""
        piece = Piece(first, most, enough_bytes, 77, 78)
        outcome, found = self.asked(name, reports, prefer, ctypes.byref(piece))
        assert (piece.first, piece.most, piece.enough_bytes) == (first, most, enough_bytes), "a call changes its piece"
        return outcome, found, piece.told, piece.all

    def whole(self, name, reports, prefer):
        """The outcome and the text of the same call without a piece, which has the whole list."""
        return self.asked(name, reports, prefer, None)

    def opened(self, name, reports, prefer, most, enough_bytes, room):
        """Opens the list of this call, and gives its pieces, one after another: the outcome and the text of each, how many entries
        came before, how many it has, and how many the list has. A piece without an entry is the last one."""
        self.library.erd_open.restype = ctypes.c_void_p
        self.library.erd_open.argtypes = [ctypes.c_int] + [ctypes.c_char_p, ctypes.c_size_t] * 2 + [ctypes.c_char_p, ctypes.c_size_t]
        self.library.erd_next.argtypes = [ctypes.c_void_p, ctypes.POINTER(Piece), ctypes.POINTER(ctypes.c_void_p),
                                          ctypes.POINTER(ctypes.c_size_t)]
        self.library.erd_close.argtypes, self.library.erd_close.restype = [ctypes.c_void_p], None
        left, right = (*reports, b"")[:2]
        opened = self.library.erd_open(LISTINGS.index(name), left, len(left), right, len(right), prefer, room)
        while True:
            piece, text, length = Piece(77, most, enough_bytes, 78, 79), ctypes.c_void_p(), ctypes.c_size_t()
            outcome = self.library.erd_next(opened, ctypes.byref(piece), ctypes.byref(text), ctypes.byref(length))
            found = ctypes.string_at(text, length.value).decode() if text else None
            self.library.erd_free(text)
            assert (piece.most, piece.enough_bytes) == (most, enough_bytes), "erd_next changes what is asked for"
            yield outcome, found, piece.first, piece.told, piece.all
            if piece.told == 0:
                break
        self.library.erd_close(opened)

    def asked(self, name, reports, prefer, piece):
        call = getattr(self.library, name)
        call.argtypes = [ctypes.c_char_p, ctypes.c_size_t] * len(reports) + [
            ctypes.c_char_p, ctypes.POINTER(Piece), ctypes.POINTER(ctypes.c_void_p), ctypes.POINTER(ctypes.c_size_t)]
        given = [part for report in reports for part in (report, len(report))]
        text, length = ctypes.c_void_p(), ctypes.c_size_t()
        outcome = call(*given, prefer, piece, ctypes.byref(text), ctypes.byref(length))
        found = ctypes.string_at(text, length.value).decode() if text else None
        self.library.erd_free(text)
        return outcome, found


def told_of_data(answer, text_of):
    """What the program writes, from the outcome and the text of a call for data. The text is the compact JSON of its value,
    with the members of each object in the order of their names."""
    outcome, text = answer
    if text is None:
        return answer
    value = json.loads(text)
    assert compact_in_order(value) == text, f"not compact, or in another order: {text[:200]!r}"
    return outcome, text_of(value)


def compact_in_order(value):
    return compact(json.loads(json.dumps(value, sort_keys=True)))


def both(library, command, reports, prefer):
    """The answer of `check` or `compare`, to which the answer as data must be equal."""
    if command == "check":
        lines, data, text_of = library.check, library.check_data, check_text
    else:
        lines, data, text_of = library.compare, library.compare_data, compare_text
    answer = lines(*reports, prefer)
    as_data = told_of_data(data(*reports, prefer), text_of)
    assert as_data == answer, f"{command} answers {answer}, and as data {as_data}"
    return answer


def answer_to(library, command, prefer, names):
    reports = []
    for name in names:
        with open(name, "rb") as file:
            reports.append(file.read())
    if command == "canon":
        return library.canonical(*reports, prefer)
    return both(library, command, reports, prefer)


def main():
    library = Library(sys.argv[1])
    with open(sys.argv[2], encoding="utf-8") as cases:
        for line in cases:
            command, prefer, *names = line.rstrip("\n").split("\t")
            outcome, text = answer_to(library, command, prefer.encode() or None, names)
            print(outcome, json.dumps(text, ensure_ascii=False))


if __name__ == "__main__":
    main()
