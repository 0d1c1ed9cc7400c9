"""The texts of the program, made from the answers of the calls for data (docs/API.md).

`check_text` makes what `erd check` writes from what `erd_check_data` answers, and `compare_text` what `erd compare` writes
from what `erd_compare_data` answers. Both take the JSON value that `json.loads` reads from the answer.
"""
import json
import pathlib
import re

PROFILE = pathlib.Path(__file__).resolve().parents[2] / "docs" / "PROFILE.md"
# The words of the reasons, as the table of the profile has them.
WORDS = re.findall(r"^\| \d+ \| [A-Z]\w+: .* \| `(.+?)(?:NAME)?` \|$", PROFILE.read_text(encoding="utf-8"), re.M)
MISSING_MEMBER = 2


def pointer(place):
    """The JSON Pointer of a place (RFC 6901)."""
    return "".join("/" + str(step).replace("~", "~0").replace("/", "~1") for step in place)


def fault_line(fault):
    """The line for a fault. An object has the members of its reason and no others."""
    reason = fault["reason"]
    members = {"place", "reason"} | ({"name"} if reason == MISSING_MEMBER else set())
    assert set(fault) == members, f"a fault has the members {sorted(fault)}"
    return pointer(fault["place"]) + ": " + WORDS[reason - 1] + fault.get("name", "")


def refusal_lines(why):
    """The lines that say why a report is refused; none if it is accepted."""
    return ["not JSON"] if why == "not JSON" else [fault_line(fault) for fault in why]


def compact(value):
    """A value as the program writes it in a difference line."""
    return json.dumps(value, ensure_ascii=False, separators=(",", ":"))


def difference_line(difference):
    """The line for a difference. An object has the members of its way to differ and no others."""
    how = difference["how"]
    members = {"part", "key", "how"} | ({"member"} if how == "member" else set())
    if difference["part"] == "contest" and difference.get("member") == "ContestSelection":
        members |= set(difference) & {"selections"}
    members |= set(difference) & {"values"}
    assert set(difference) == members, f"a difference has the members {sorted(difference)}"
    key = "" if difference["key"] is None else " " + compact(difference["key"])
    words = how + " " + compact(difference["member"]) if how == "member" else how
    return difference["part"] + key + ": " + words


def text_of(lines):
    return "".join(line + "\n" for line in lines)


def differences_text(answer):
    """The lines of all differences: what the reference program writes for the command `differences`."""
    return text_of([difference_line(difference) for difference in answer] or ["same"])


def check_text(answer):
    """What `erd check` writes."""
    return text_of(refusal_lines(answer) or ["accepted"])


def compare_text(answer):
    """What `erd compare` writes."""
    if answer is None:
        return "same\n"
    if "refused" in answer:
        assert set(answer) == {"refused", "faults"} and answer["faults"], f"a refusal has the members {sorted(answer)}"
        return text_of(answer["refused"] + ": " + line for line in refusal_lines(answer["faults"]))
    return text_of([difference_line(answer)])
