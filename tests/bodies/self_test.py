"""Tries what the runner makes of a wrong body and of what a check says, without the prover, and of a list and of what a script says. It
also holds that all that is wrong can be put in, and stands in a list. One line a case that fails, and at the end the counts."""
import sys

sys.dont_write_bytecode = True
import by_scripts  # noqa: E402
import by_suite  # noqa: E402
import check_of_edits  # noqa: E402
import edited_functions  # noqa: E402
import wrong_lists  # noqa: E402
from wrong_lists import TOP, BadList, Wrong  # noqa: E402

sys.path.append(str(TOP / 'tests' / 'shared'))
from cases import tell_cases  # noqa: E402

SOURCE = """//! A file.
use std::fmt;

/// Counts.
#[tactic(auto)]
pub fn counts(text: &str) -> usize
    ensures { result ≡ length text.now }
{
    if text.is_empty() {
        return 0;
    }
    text.len()
}

impl<'a> PartialEq for Held<'a> {
    fn eq(&self, other: &Held<'a>) -> bool {
        self.text == other.text
    }
}

impl<'a, R: Read> Source<R> for Option<Key<'a, R>> {
    pub(crate) fn read(&mut self) -> usize {
        1
    }
}

#[cycle(walk)]
fn walk(items: &[Value]) -> bool {
    true
}

impl Outer {
    pub fn size(&self) -> usize {
        2
    }
}

impl<K: Eq + Hash, Q: Sought<K>> Equivalent<Salted<K>> for Numbered<Q> {
    fn equivalent(&self, key: &Salted<K>) -> bool {
        3
    }
}

impl<'b, 'a> Sought<(usize, Ranked<Name>)> for SoughtName<'b, 'a> {
    fn number(&self) -> u64 {
        4
    }
}

impl From<io::Error> for WorldFault {
    fn from(error: io::Error) -> Self {
        5
    }
}

fn copied(alloc: Global, text: &str) -> Result<String, AllocError> {
    String::from_str(alloc, text)
}

fn pushed(
    out: &mut String,
    times: usize,
) -> Result<(), AllocError>
    ensures { OnOk result (out.new ≡ out.old) }
{
    if times > 0 {
        pushed(out, times - 1)?;
    }
    Ok(())
}
"""
LINE = "fn some::a::b::counts: no proof: expected answers in ./proofs/a/b/counts/Answers.antt; `search` did not prove `returns`"
ITSELF = "fn some::a::b::pushed: not proved"
CALLS = "fn some::a::b::counts: no proof: it calls `some::a::b::other`, which is not proved"
GOAL = "note: src/a/b.rt:6:1: it is not proved that what the function ensures holds when it returns (`returns`)"
METHOD = "fn some::outer::Outer::size: no proof: expected answers in ./proofs/outer/Outer/size/Answers.antt"
METHOD_GOAL = GOAL.replace(":6:1", ":33:5")
NAME = "./proofs/a/b/counts/Answers.antt:7:15: error: `returns`: record `Lts.After-len`\n  has no field `len`"
TYPE = "./proofs/a/b/counts/Answers.antt:7:15: error: `returns`: as printed, the two types first differ"
NUMBER = "./proofs/a/b/counts/Answers.antt:7:15: error: `returns`: the two types are `f c.push.x` (expected) and `f c.push-2.x`\n  (found)"
INVARIANT = "./proofs/a/b/counts/Invariants.antt:7:15: error: `invariant-loop-at`: as printed, the two types first differ"


def function_with(text):
    return edited_functions.function_at("src/a/b.rt", SOURCE, SOURCE.index(text) + len(text))


def judged(*lines, function="a::b::counts"):
    """Returns `yes`, `no` or `unseen` for a check that said these lines."""
    found = check_of_edits.Checked("\n".join(lines), lambda path: SOURCE)
    is_refused, why = found.refusal(function, function)
    return "yes" if is_refused else "no" if why else "unseen"


def applied(text, place="file: src/a/b.rt\n"):
    try:
        return edited_functions.applied(wrong_lists.wrong_of(f"name: a\n{place}{text}"), lambda path: SOURCE)[1]
    except BadList:
        return "bad"


def spared(*kept):
    return edited_functions.spared("src/a/b.rt", SOURCE, kept)


# A method whose body an edit has put beside its head, and a function after it.
BESIDE = (
    "impl A {\n    fn one(&self) -> u8 { if true { return 1; }\n        2\n    }\n}\n\n"
    "fn two() -> Result<u8, AllocError>\n{\n    three()\n}\n"
)

# Something wrong, and the cases that three wrong lines break.
BLOCK = r"""name: a_name
case: the case
batch: 2
gate: a reason
fn: one::two
each WORD: A:B C
file: a/b.sh
old: one\ntwo \\n
new:"""
BROKEN = {"one": {"a", "b"}, "two": {"b", "c"}, "three": {"b"}}


def block():
    found = wrong_lists.wrong_of(BLOCK)
    return found.name, found.case, found.batch, found.gate, found.functions, found.each, found.changes


def batches(*names):
    wanted = wrong_lists.List("some", "a command", None, wrongs=[Wrong(name, []) for name in names])
    text = "list: other\nname: one\n\nlist: some\n" + "".join(f"name: {name}\n" for name in names)
    return by_scripts.with_batches(text, wanted, BROKEN).split("\n")[4:-1]


def misfit(*news):
    return wrong_lists.misfit([Wrong("a", [("VERSION", "old", new)]) for new in news], lambda file: "an old text")[:2]


def lists_that_do_not_fit():
    """What can't be put in, or a batch of it, by its list; and wrong bodies that change no function."""
    for section in wrong_lists.lists():
        if section.kind == 'bodies':
            for wrong in section.wrongs:
                try:
                    functions = edited_functions.applied(wrong, lambda file, of=section.name: wrong_lists.of_repository(f'crates/{of}/{file}'))[1]
                    why = '' if functions else 'no function'
                except (BadList, OSError) as error:
                    why = error
                if why:
                    yield f'{section.name}/{wrong.name}: {why}'
        else:
            wrongs = section.wrongs if section.kind == 'lines' else list(by_suite.programs(section.wrongs))
            yield from (f'{section.name}: {why}' for why in map(wrong_lists.misfit, wrong_lists.batches_of(wrongs)) if why)


def missing_cases():
    """Programs that no case is known to catch, and cases of none."""
    programs = {program.name for section in wrong_lists.lists() if section.kind == 'programs' for program in by_suite.programs(section.wrongs)}
    return sorted(programs ^ set(by_suite.caught_before()))


CASES = [
    ("a function", lambda: function_with("    text.len()"), "a::b::counts"),
    ("a line after a block", lambda: function_with("return 0;"), "a::b::counts"),
    ("the contract", lambda: function_with("ensures { result"), "a::b::counts"),
    ("a method of a trait", lambda: function_with("self.text =="), "a::b::HeldPartialEq::eq"),
    ("a method of a type with types", lambda: function_with("        1"), "a::b::OptionKeySource::read"),
    ("a trait with types in types", lambda: function_with("        3"), "a::b::NumberedEquivalentSalted::equivalent"),
    ("a trait with a pair", lambda: function_with("        4"), "a::b::SoughtNameSoughtTuple2UsizeRankedName::number"),
    ("a trait with a path", lambda: function_with("        5"), "a::b::WorldFaultFromIoError::from"),
    ("no function", lambda: function_with("use std::fmt;"), None),
    ("a cycle", lambda: edited_functions.cycle_of(SOURCE, "a::b::", "a::b::walk"), "a::b::+walk"),
    ("no cycle", lambda: edited_functions.cycle_of(SOURCE, "a::b::", "a::b::counts"), "a::b::counts"),
    ("the root of a crate", lambda: edited_functions.module_of("src/lib.rt"), ""),
    ("a pair", lambda: applied("old:     text.len()\nnew:     0"), ["a::b::counts"]),
    ("a named function", lambda: applied("fn: a::c\nold: use std::fmt;\nnew: use std::cmp;"), ["a::c"]),
    ("a text that stands twice", lambda: applied("old: text\nnew: word"), "bad"),
    ("a text that stands nowhere", lambda: applied("old: nothing\nnew: word"), "bad"),
    ("no pair", lambda: applied(""), "bad"),
    ("no file", lambda: applied("old:     text.len()\nnew:     0", ""), "bad"),
    ("a spared function", lambda: spared()[1], ["a::b::copied"]),
    ("its body", lambda: spared()[0], SOURCE.replace("String::from_str(alloc, text)", "Err(AllocError)")),
    ("a changed function is not spared", lambda: spared("a::b::copied"), (SOURCE, [])),
    ("a body beside its head", lambda: edited_functions.spared("src/a/b.rt", BESIDE, ())[1], ["a::b::two"]),
    ("an open goal", lambda: judged(LINE, GOAL), "yes"),
    ("an answer of another type", lambda: judged(LINE, TYPE), "yes"),
    ("a function that calls itself", lambda: judged(ITSELF, TYPE.replace("counts", "+pushed"), function="a::b::pushed"), "yes"),
    ("an open goal beside another call", lambda: judged(CALLS, GOAL), "yes"),
    ("another call alone", lambda: judged(CALLS), "unseen"),
    ("nothing", lambda: judged("only=1 proved=0"), "unseen"),
    ("a goal of another function", lambda: judged(CALLS, GOAL.replace(":6:1", ":16:5")), "unseen"),
    ("a method outside its type's module", lambda: judged(METHOD, METHOD_GOAL, function="outer::Outer::size"), "yes"),
    ("something wrong", block, ("a_name", "the case", 2, "a reason", ["one::two"], {"WORD": ["A:B", "C"]}, [("a/b.sh", "one\ntwo \\n", "")])),
    ("a text that is written and read", lambda: wrong_lists.unescaped(wrong_lists.escaped("a\n\\n\\")), "a\n\\n\\"),
    ("a case that failed", lambda: by_scripts.is_of_case("FAILED  Chromium: a: b, c: 'x'", "a: b, c"), True),
    ("a case of pytest", lambda: by_scripts.is_of_case("FAILED tests/a.py::b[c-d] - assert 1 == 2", "tests/a.py::b[c-d]"), True),
    ("another case", lambda: by_scripts.is_of_case("FAILED  a: b, cd: x", "a: b, c"), False),
    ("any case", lambda: by_scripts.is_of_case("FAILED  a: x", ""), True),
    ("what is quoted of a case that failed", lambda: by_scripts.unmarked("FAILED  a: FAILED"), "a: FAILED"),
    ("what is quoted of pytest", lambda: by_scripts.unmarked("FAILED tests/a.py::b - x"), "tests/a.py::b - x"),
    ("what a line breaks", lambda: by_scripts.name_of("FAILED  Firefox: a, b: {'x': 1}", ["a", "a, b"]), "a, b"),
    ("what it breaks where no case is known", lambda: by_scripts.name_of("FAILED  a: b: 'x' in place of 'y'", []), "a: b"),
    ("two that are told apart", lambda: batches("one", "two"), ["name: one", "case: a", "batch: 1", "name: two", "case: c", "batch: 1"]),
    ("two that are not", lambda: batches("one", "three"), ["name: one", "case: a", "batch: 1", "name: three", "case: b", "batch: 2"]),
    ("a line that fits", lambda: misfit("0"), ""),
    ("two lines on one text", lambda: misfit("0", "1"), "a:"),
    ("each list fits", lambda: list(lists_that_do_not_fit()), []),
    ("each program has its case", missing_cases, []),
    ("a proof", lambda: judged("fn some::a::b::counts: proved"), "no"),
    ("a missing name", lambda: judged(LINE, NAME), "no"),
    ("a missing name beside an open goal", lambda: judged(LINE, GOAL, NAME), "no"),
    ("an invariant that doesn't fit", lambda: judged(LINE, INVARIANT), "no"),
    ("an answer that cites another call of one name", lambda: judged(LINE, NUMBER), "no"),
]


if __name__ == "__main__":
    sys.exit(tell_cases((name, wanted, found()) for name, found, wanted in CASES))
