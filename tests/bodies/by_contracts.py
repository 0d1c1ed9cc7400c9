"""Tries wrong bodies in a copy of each crate: the prover has to refuse each function that they change.

Several are tried in one check, at most one in a function. Other functions that may be out of memory do nothing else there, so that
little is proved for their sake. A body counts as refused if the check leaves a goal open in a function that it changes. It fails
where the function is proved, and where a proof file only misses a name. What was not seen refused in company is tried again
alone. The libraries below are used as `rt ci` has left them, or proved as far as they have changed.
RT_JOBS is the number of crates that are tried beside each other.
"""
import collections
import concurrent.futures
import contextlib
import os
import pathlib
import re
import shutil
import subprocess
import sys
import tempfile

import check_of_edits
import edited_functions
from wrong_lists import BadList

TOP = os.path.dirname(os.path.dirname(os.path.dirname(os.path.abspath(__file__))))
# What is proved with the tests alone.
TESTED = ("lower_uses", "uses")

Group = collections.namedtuple("Group", "edits texts functions changed")


def text_of(path):
    return pathlib.Path(path).read_text(encoding="utf-8")


def words_of(name):
    """Returns the words of a check of the crate, and the folders of the repository's libraries that it names."""
    made = subprocess.run([f"{TOP}/packaging/words.sh", name], stdout=subprocess.PIPE, text=True, check=True)
    doc = subprocess.run(["rt", "doc"], stdout=subprocess.PIPE, text=True, check=True).stdout
    kit = os.path.dirname(doc)
    words = [f"{kit}/bin/rattle", "check", *made.stdout.splitlines(), "--logic-built", f"{kit}/logic_built", "--jobs", "1"]
    words += ["--test"] if name in TESTED else []
    return words, re.findall(rf"^\w+=({TOP}/crates/\w+)/out/rlib/", made.stdout, re.M)


def renew(name):
    """Proves what has changed in the libraries below, but for those that `rt ci` has left."""
    for folder in words_of(name)[1]:
        if os.path.exists(f"{folder}/out/rlib/stamp") or not os.path.exists(f"{folder}/out/rlib"):
            ran = subprocess.run(["rt", "lib", "--jobs", "1"], cwd=folder, stdout=subprocess.PIPE, stderr=subprocess.STDOUT, text=True)
            if ran.returncode:
                sys.exit(f"edits: {folder} is not proved:\n{ran.stdout[-2000:]}")


class Crate:
    """A crate on which edits are tried, over work that is kept from one check to the next."""

    def __init__(self, name, room):
        self.name, self.folder, self.kept = name, f"{TOP}/crates/{name}", f"{room}/{name}"
        self.lines, self.spent, self.words = [], 0, words_of(name)[0]
        earlier = f"{self.folder}/out/incremental"
        if os.path.isdir(earlier):
            shutil.copytree(earlier, self.kept)
        else:
            os.makedirs(self.kept)

    def read(self, path, texts=None):
        return (texts or {}).get(path) or text_of(f"{self.folder}/{path}")

    def say(self, name, is_refused, why):
        mark = "ok    " if is_refused else "FAILED"
        self.lines.append(f"{mark}  {self.name}/{name}: {why[:300]}")
        print(self.lines[-1], flush=True)

    def cycle(self, function):
        """Returns the function, or where it is in a cycle of calls, the cycle, as its proof files are named."""
        path = max((it for it in self.sources() if function.startswith(it[1])), key=lambda it: len(it[1]))
        return edited_functions.cycle_of(self.read(path[0]), path[1], function)

    def sources(self):
        found = []
        for at, _, names in os.walk(f"{self.folder}/src"):
            for name in names:
                path = os.path.relpath(f"{at}/{name}", self.folder)
                found.append((path, edited_functions.module_of(path)))
        return found

    def groups(self, edits):
        """Puts each edit into the first group that changes other functions than it does."""
        made = []
        for edit in edits:
            try:
                _, functions, _ = edited_functions.applied(edit, self.read)
                if not functions:
                    raise BadList("it changes no function, and has no line `fn:`")
            except (BadList, OSError) as error:
                self.say(edit.name, False, f"BAD EDIT: {error}")
                continue
            if not any(self.put(edit, it) for it in made):
                made.append(Group([], {}, {}, set()))
                self.put(edit, made[-1])
        return made

    def put(self, edit, group):
        """Adds the edit to the group, and returns whether it fits there."""
        try:
            texts, functions, changed = edited_functions.applied(edit, lambda path: self.read(path, group.texts))
        except BadList:
            return False
        taken = {self.cycle(it) for it in group.functions}
        if any(self.cycle(it) in taken for it in functions):
            return False
        group.edits.append((edit, functions))
        group.texts.update(texts)
        group.functions.update(dict.fromkeys(functions))
        group.changed.update(functions + changed)
        return True

    def check(self, group):
        """Checks the group, says what was refused and what was let through, and returns the edits that were not seen refused."""
        texts, spared = self.spared(group)
        said, spent = check_of_edits.check(self.folder, texts, spared, group.functions, self.words, self.kept)
        self.spent += spent
        self.keep_log(group, said)
        found = check_of_edits.Checked(said, lambda path: self.read(path, texts))
        if not found.is_read:
            return self.check_readable(group, found)
        left = []
        for edit, functions in group.edits:
            tried = [found.refusal(it, self.cycle(it)) for it in functions]
            refused = [why for is_refused, why in tried if is_refused]
            wrong = [why for is_refused, why in tried if why and not is_refused]
            if wrong or refused:
                self.say(edit.name, not wrong, (wrong or refused)[0])
            else:
                left.append(edit)
        print(f"{self.name}: {len(group.edits)} edits in one check, {spent:.0f} processor seconds", flush=True)
        return left

    def spared(self, group):
        """Returns the texts of the group, with those functions spared that it doesn't change, and these functions."""
        texts, functions = dict(group.texts), []
        for path, _ in self.sources():
            text, found = edited_functions.spared(path, self.read(path, texts), group.changed)
            if found:
                texts[path] = text
                functions += found
        return texts, functions

    def check_readable(self, group, found):
        """Says which edits the compiler can't read, by the files of its errors, and checks the others of the group."""
        readable = []
        for edit, _ in group.edits:
            paths = edited_functions.applied(edit, self.read)[0]
            error = next((it for it in found.unread if it.split(":")[0] in paths or not found.unread_in(group.texts)), None)
            if error:
                self.say(edit.name, False, f"BAD EDIT: {error}")
            else:
                readable.append(edit)
        return [edit for again in self.groups(readable) for edit in self.check(again)]

    def keep_log(self, group, said):
        os.makedirs(f"{TOP}/out/edits", exist_ok=True)
        with open(f"{TOP}/out/edits/{self.name}.log", "a", encoding="utf-8") as log:
            log.write(f"== {' '.join(edit.name for edit, _ in group.edits)}\n{said}")


def tried_in(name, edits, room):
    """Tries these bodies of one crate, and returns their lines and the processor seconds."""
    crate = Crate(name, room)
    left = [it for group in crate.groups(edits) for it in crate.check(group)]
    for edit in left:
        print(f"{name}/{edit.name} was not seen refused in company, and is tried alone", flush=True)
        for last in crate.check(*crate.groups([edit])):
            crate.say(last.name, False, f"NOT REFUSED by a contract: out/edits/{name}.log has what the check said")
    return crate.lines, crate.spent


def tried(sections, _):
    """Tries the bodies of these crates, and returns how many were refused and how many were not."""
    lines, spent = [], {}
    for section, _ in sections:
        with contextlib.suppress(FileNotFoundError):
            os.remove(f"{TOP}/out/edits/{section.name}.log")
        renew(section.name)
    with tempfile.TemporaryDirectory(prefix="erd-kept-") as room:
        with concurrent.futures.ProcessPoolExecutor(int(os.environ.get("RT_JOBS") or 1)) as pool:
            runs = {section.name: pool.submit(tried_in, section.name, wrongs, room) for section, wrongs in sections}
            for name, run in runs.items():
                said, spent[name] = run.result()
                lines += said
    failed = [it for it in lines if it.startswith("FAILED")]
    print("\n".join(failed))
    print("Processor seconds: " + ", ".join(f"{name} {it:.0f}" for name, it in spent.items()))
    return len(lines) - len(failed), len(failed)
