"""Programs that are compared, and how: a program of this repository, and an independent model of it.

GHCB_RUN and GHCB_SMP name `ghcb_run` and `ghcb_smp`, else they are those that `rt` builds; GHCB_MODEL names the model.
Where one is missing, the script that asks for it says that it is skipped, and ends with status 0.
"""
import os
import shlex
import shutil
import subprocess
import sys
import tempfile
from collections import Counter
from concurrent.futures import ThreadPoolExecutor
from pathlib import Path
from typing import NamedTuple

TOP = Path(__file__).resolve().parent.parent
SCRIPT = Path(sys.argv[0]).name
# The model answers for later versions of `ghcb_run` too. Its variable ORACLE_STAGE and its words --proto 1 say how
# far it is to go: stage 9 of version 1 of the protocol has several vCPUs, runs with no page between guest and devices,
# reports, and images from a number.
MODEL_VARIABLES = {"ORACLE_STAGE": "9"}
MODEL_WORDS = ("--proto", "1")
VARIABLES = {"ghcb_run": "GHCB_RUN", "ghcb_smp": "GHCB_SMP"}
SECONDS = 300
WORKERS = 2
MOST_DIFFERENCES = 5


class Program(NamedTuple):
    """A program with the variables and the first words that it is called with."""

    path: Path
    variables: dict
    first: tuple

    def run(self, *words, given=b""):
        """The exit status, and the bytes on the standard output. The standard input is `given`."""
        try:
            done = subprocess.run(
                [self.path, *self.first, *map(str, words)],
                env={**os.environ, **self.variables},
                input=given,
                stdout=subprocess.PIPE,
                stderr=subprocess.DEVNULL,
                timeout=SECONDS,
            )
        except subprocess.TimeoutExpired:
            return f"none after {SECONDS} seconds", b""
        return done.returncode, done.stdout

    def output(self, *words, given=b""):
        """What it prints, where its status is 0; else this ends."""
        status, printed = self.run(*words, given=given)
        if status != 0:
            sys.exit(f"{SCRIPT}: status {status} of {self.line(*words)}")
        return printed

    def line(self, *words):
        """The same call as a line for the shell."""
        variables = [f"{name}={value}" for name, value in self.variables.items()]
        return " ".join(variables + [shlex.join(map(str, (self.path, *self.first, *words)))])


def skip(why):
    print(f"{SCRIPT}: skipped: {why}")
    sys.exit(0)


def is_program(path):
    return path.is_file() and os.access(path, os.X_OK)


def path_of(crate):
    """The program of a crate, as `rt run` builds it there, or another that its variable names."""
    other = os.environ.get(VARIABLES.get(crate, ""))
    return Path(other).absolute() if other else TOP / f"crates/{crate}/out/{crate}"


def program(crate="ghcb_run"):
    path = path_of(crate)
    if not is_program(path):
        named = f", or {VARIABLES[crate]} names another" if crate in VARIABLES else ""
        skip(f"{path} is no program; rt run in crates/{crate} builds it{named}")
    return Program(path, {}, ())


def built(crate):
    """The program of a crate, which is built first."""
    made = subprocess.run(
        ["rt", "run"],
        cwd=TOP / "crates" / crate,
        stdin=subprocess.DEVNULL,
        stdout=subprocess.PIPE,
        stderr=subprocess.STDOUT,
        text=True,
    )
    if made.returncode != 0:
        sys.exit(made.stdout)
    return program(crate)


def model():
    path = Path(os.environ.get("GHCB_MODEL", "")).absolute()
    if not is_program(path):
        skip("GHCB_MODEL names no program")
    return Program(path, MODEL_VARIABLES, MODEL_WORDS)


def seed_and_count(documentation, count):
    """The words SEED and COUNT of the command line, where they are given. Other words get the script's text."""
    words = sys.argv[1:] + ["1", str(count)][len(sys.argv) - 1 :]
    if len(words) != 2 or not all(word.isdecimal() for word in words):
        sys.exit(documentation)
    if int(words[1]) == 0:
        sys.exit(f"{SCRIPT}: nothing to compare")
    return int(words[0]), int(words[1])


class Outcome(NamedTuple):
    """What came of one job: how many of each thing there were, and a text of each difference."""

    counts: dict
    differences: list


def difference(ours, model, words, got, want):
    """The text of two runs with different statuses or outputs, with the lines that run them again."""
    ends = "status {} and {} bytes, the model {} and {}".format(got[0], len(got[1]), want[0], len(want[1]))
    return f"{ends}\n    again: {ours.line(*words)}\n    model: {model.line(*words)}"


def outcomes_of(compare, jobs):
    """The outcomes of the jobs, up to the last difference that is looked for."""
    differ = 0
    with ThreadPoolExecutor(WORKERS) as pool:
        for outcome in pool.map(lambda job: compare(*job), jobs):
            yield outcome
            for text in outcome.differences[: MOST_DIFFERENCES - differ]:
                print(f"{SCRIPT}: different: {text}", flush=True)
            differ += len(outcome.differences)
            if differ >= MOST_DIFFERENCES:
                pool.shutdown(cancel_futures=True)
                return


def compare_all(compare, seed, jobs):
    """Does the jobs, prints what there was and what differs, and ends with status 1 where anything does.

    `compare` gets an empty folder and what the job has, and returns the outcome. The folder is kept where anything
    differs.
    """
    folder = Path(tempfile.mkdtemp(prefix=f"{SCRIPT}-"))
    counts, differ = Counter(), 0
    for outcome in outcomes_of(lambda *job: compare(folder, *job), jobs):
        counts.update(outcome.counts)
        differ += len(outcome.differences)
    if not differ:
        shutil.rmtree(folder)
    numbers = ", ".join(f"{number} {name}" for name, number in counts.items())
    print(f"{SCRIPT}: from seed {seed}: {numbers}; {f'{differ} differ' if differ else 'no difference'}")
    sys.exit(differ > 0)


def compare_lines(what, given, got, want):
    """Compares the lines of two answers to the same lines, and ends with status 1 at the first that differs."""
    rows = zip(given.splitlines(), got.splitlines(), want.splitlines())
    for line, ours, other in rows:
        if ours != other:
            sys.exit(f"{SCRIPT}: {what}: different: {line.decode()}: {ours.decode()}, and not {other.decode()}")
    if got != want:
        sys.exit(f"{SCRIPT}: {what}: different: {len(got)} and {len(want)} bytes")
    print(f"{SCRIPT}: {what}: no difference")
