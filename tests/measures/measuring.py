"""What the benchmarks share: processor time, peak memory and instructions of one run of a program, and the programs beside `erd`. Once
it is imported, they find what other folders have."""
import glob
import itertools
import os
import re
import shutil
import statistics
import subprocess
import sys
import tempfile

sys.path += [os.path.join(os.path.dirname(os.path.abspath(__file__)), os.pardir, folder) for folder in ("reports", "shared")]

from cases import tell  # noqa: E402

# Reads a value by serde_json and writes it again, without freeing it: proved, over the kit's serde_json, which `erd` has too.
ROUND_TRIP = "crates/round_trip/out/round_trip"

# The C library copies and compares by the instructions of x86-64-v2 alone, which each machine that runs `erd` has.
PLAIN = "glibc.cpu.hwcaps=-AVX,-AVX2,-AVX512F,-AVX512VL,-AVX512BW,-BMI1,-BMI2,-LZCNT,-MOVBE,-ERMS,-FSRM,-RTM"


def run(command, stdin=None):
    """What one run used, whose output goes nowhere, and its exit status."""
    child = os.fork()
    if child == 0:
        try:
            if stdin is not None:
                os.dup2(os.open(stdin, os.O_RDONLY), 0)
            nowhere = os.open(os.devnull, os.O_WRONLY)
            os.dup2(nowhere, 1)
            os.dup2(nowhere, 2)
            os.execvp(command[0], command)
        finally:
            os._exit(127)
    _, status, usage = os.wait4(child, 0)
    return usage, os.waitstatus_to_exitcode(status)


def uses(commands, runs, statuses):
    """For each command, by its name, what so many runs used. The commands run in turn, so that what else the machine does meets all of
    them alike. Another status than these ends the benchmark."""
    found = {name: [] for name in commands}
    for _ in range(runs):
        for name, (command, stdin) in commands.items():
            usage, status = run(command, stdin)
            if status not in statuses:
                sys.exit("bench: " + " ".join(command) + ": status " + str(status))
            found[name].append(usage)
    return found


def measured(commands, runs):
    """For each command the medians of its processor time in seconds and its peak memory in MB."""
    return {name: (statistics.median(each.ru_utime + each.ru_stime for each in found), statistics.median(each.ru_maxrss / 1024 for each in found))
            for name, found in uses(commands, runs, (0,)).items()}


def least_times(commands, runs, statuses):
    """For each command the least of its processor times in seconds, without those of the system: other work on the machine adds to
    these more than to it."""
    return {name: min(each.ru_utime for each in found) for name, found in uses(commands, runs, statuses).items()}


def instructions(command, stdin=None, statuses=(0,)):
    """The instructions of one run, as callgrind of valgrind counts them. Neither the machine nor other work on it changes them."""
    with tempfile.NamedTemporaryFile() as log, open(stdin or os.devnull, "rb") as given:
        counter = ["valgrind", "--tool=callgrind", "--callgrind-out-file=/dev/null", "--log-file=" + log.name]
        ran = subprocess.run(counter + command, stdin=given, stdout=subprocess.DEVNULL, stderr=subprocess.DEVNULL, check=False,
                             env=dict(os.environ, GLIBC_TUNABLES=PLAIN))
        counted = re.search(r"Collected : (\d+)", log.read().decode())
    if counted is None or ran.returncode not in statuses:
        sys.exit("bench: " + " ".join(command) + " under valgrind: status " + str(ran.returncode))
    return int(counted.group(1))


# ---- cases


def at_most(most, ratio):
    """Why a case failed whose ratio may be so large; the empty text if it is no larger."""
    return "" if ratio <= most else "at most %g times are held" % most


def counted_cases(cases, what, others=()):
    """Tells the cases that count instructions, which get a folder for their files, after others. Without valgrind it says what is
    skipped. Returns the exit status of the script."""
    if not shutil.which("valgrind"):
        print("skipped %s: install the package valgrind" % what)
        return tell(others)
    with tempfile.TemporaryDirectory() as folder:
        return tell(itertools.chain(others, cases(folder)))


# ---- the original

CRATES = "/usr/share/cargo/registry"
MANIFEST = '[package]\nname = "original"\nversion = "1.0.0"\nedition = "2021"\n[dependencies]\nserde_json = "1"\n'
PROGRAM = """use std::io::{Read, Write};
fn main() {
    let mut bytes = Vec::new();
    std::io::stdin().read_to_end(&mut bytes).unwrap();
    let tree: serde_json::Value = serde_json::from_slice(&bytes).unwrap();
    let text = serde_json::to_vec(&tree).unwrap();
    std::mem::forget(tree);
    std::io::stdout().write_all(&text).unwrap();
}
"""


def original(folder):
    """The path of a program in Rust that reads and writes by the original serde_json of Debian's package, or none where that or cargo
    is missing."""
    if not shutil.which("cargo") or not glob.glob(CRATES + "/serde_json-*"):
        return None
    home = os.path.join(folder, "original")
    os.makedirs(os.path.join(home, "src"))
    os.makedirs(os.path.join(home, ".cargo"))
    for name, text in (("Cargo.toml", MANIFEST), ("src/main.rs", PROGRAM),
                       (".cargo/config.toml", '[source.crates-io]\nreplace-with = "debian"\n[source.debian]\ndirectory = "%s"\n' % CRATES)):
        with open(os.path.join(home, name), "w", encoding="utf-8") as file:
            file.write(text)
    built = subprocess.run(["cargo", "build", "--release", "--offline", "--quiet"], cwd=home, capture_output=True, text=True, check=False)
    if built.returncode != 0:
        print("without the original serde_json: " + built.stderr.strip()[-300:], file=sys.stderr)
        return None
    return os.path.join(home, "target", "release", "original")
