"""One check of a copy of a crate with several edits applied, and what it says of each function that they change."""
import collections
import os
import re
import resource
import shutil
import subprocess
import tempfile

import edited_functions

NOTE = re.compile(r"note: (src/\S+):(\d+):\d+: it is not proved that (.*)")
LINE = re.compile(r"fn \w+::(\S+): (proved|no proof|not proved|could not tell)")
ERROR = re.compile(r"^(?:\./)?proofs/(\S+)/(\w+)\.antt:\d+:\d+: error: (.*(?:\n  .*)?)", re.M)
NAMES = re.compile(r"has no field|has no `|that can be named|is not in scope")
PAIR = re.compile(r"`([^`]*)` \(expected\) and `([^`]*)`\s+\(found\)")
FOLLOWS = re.compile(r"(was|were) not admitted")
READS = ("src", "specs", "proofs")


class Checked:
    """What a check said: the lines of its functions, the goals left open in each, and of each one's proof files the errors in
    goals and those that come from another shape of the function."""

    def __init__(self, said, sources):
        self.is_read = bool(re.search(r"^(only|logic)=", said, re.M))
        self.unread = re.findall(r"^.*\berror\b.*$", said, re.M) or said.splitlines()[-1:]
        self.lines = {it[1]: it[2] for it in map(LINE.match, said.splitlines()) if it}
        self.goals = collections.defaultdict(list)
        self.misfits = collections.defaultdict(list)
        for note in filter(None, map(NOTE.match, said.splitlines())):
            self.goals[self.as_checked(at_line(sources, note[1], int(note[2])))].append(note[3])
        for path, file, error in ERROR.findall(said):
            if not FOLLOWS.search(error):
                is_misfit = file == "Invariants" or NAMES.search(error) or is_renumbered(error)
                (self.misfits if is_misfit else self.goals)[path.replace("/", "::")].append(error.replace("\n ", ""))

    def as_checked(self, function):
        """Returns the function as the check names it: a method outside the module of its type has the name of that module."""
        method = re.search(r"[A-Z]\w*::\w+$", function or "")
        named = [it for it in self.lines if method and f"::{it}".endswith(f"::{method[0]}")]
        return named[0] if function not in self.lines and len(named) == 1 else function

    def unread_in(self, paths):
        """Returns whether an error of the compiler names one of these files."""
        return any(it.split(":")[0] in paths for it in self.unread)

    def refusal(self, function, cycle):
        """Returns whether the contract of the function refuses it, and the words for that, or no words where nothing is seen."""
        # a function that calls itself is a cycle of its own name
        named = {function, cycle, "::+".join(function.rsplit("::", 1))}
        misfits = [it for name in named for it in self.misfits[name]]
        goals = [it for name in named for it in self.goals[name]]
        if self.lines.get(function) == "proved":
            return False, f"NOT REFUSED: {function} is still proved"
        if misfits:
            return False, f"BAD EDIT: a proof of {function} doesn't fit it, so keep the shape and the names: {misfits[0]}"
        if goals and function in self.lines:
            return True, f"{function} is refused, without a proof that {goals[0]}"
        return False, ""


def is_renumbered(error):
    """Returns whether the two types of an error differ only in the numbers of names, as `push` and `push-2`: a call more or less gives
    what the proof cites another name, and the contract says nothing against it."""
    pair = PAIR.search(error)
    return bool(pair) and pair[1] != pair[2] and re.sub(r"-\d+\b", "", pair[1]) == re.sub(r"-\d+\b", "", pair[2])


def at_line(sources, path, number):
    """Returns the function in which the line of a file stands."""
    text = sources(path)
    start = sum(len(it) for it in text.splitlines(keepends=True)[: number - 1])
    line = text[start:].split("\n")[0]
    while line.startswith(("#", "//")) or line.lstrip().startswith(("#[", "///")):
        start += len(line) + 1
        line = text[start:].split("\n")[0]
    return edited_functions.function_at(path, text, start + len(line))


def check(folder, texts, spared, functions, words, kept):
    """Checks these functions in a copy of the crate with these texts in place of its own, and without the proofs of those that are
    spared, over the work in `kept`. Returns what it said and the processor seconds that it took."""
    with tempfile.TemporaryDirectory(prefix="erd-edits-") as room:
        for part in READS:
            if os.path.isdir(f"{folder}/{part}"):
                shutil.copytree(f"{folder}/{part}", f"{room}/{part}")
        for path, text in texts.items():
            with open(f"{room}/{path}", "w", encoding="utf-8") as file:
                file.write(text)
        for function in spared:
            shutil.rmtree(f"{room}/proofs/{function.replace('::', '/')}", ignore_errors=True)
        only = [word for it in functions for word in ("--only", it)]
        before = seconds()
        ran = subprocess.run(
            [*words, *only, "--incremental", kept],
            cwd=room, stdin=subprocess.DEVNULL, stdout=subprocess.PIPE, stderr=subprocess.STDOUT, text=True, errors="replace",
        )
        return ran.stdout, seconds() - before


def seconds():
    """The processor seconds of the checks that have ended."""
    used = resource.getrusage(resource.RUSAGE_CHILDREN)
    return used.ru_utime + used.ru_stime
