"""What the gate does with a crate: its proof, its wrong bodies, its tests; and what of it waits for what."""
import copy
import glob
import os
import re
import subprocess
import tempfile
import threading
import time

from . import edits, kit, lanes

HARMLESS = f"{kit.TOP}/tests/harmless"
PRINTING = threading.Lock()


class Tally:
    """What passed, and what failed, by name."""

    def __init__(self):
        self.passed, self.failed = 0, []

    def note(self, is_well, name, text):
        with PRINTING:
            self.passed += is_well
            self.failed += [] if is_well else [name]
            print(text if is_well else f"FAILED {text}", flush=True)

    def told(self):
        """Tells how much passed and failed, in the last line. Returns the status."""
        if self.failed:
            print("failed:", *self.failed)
        print(f"{self.passed} passed, {len(self.failed)} failed", flush=True)
        return 1 if self.failed else 0


def proof(crate, jobs, tally, compilers):
    """Proves the crate; builds a program by these compilers, and of a static library its archive."""
    crate, began = copy.copy(crate), time.monotonic()
    with tempfile.TemporaryFile("w+", errors="replace") as crate.out:
        why = kit.fault_in_texts(crate)
        is_well = not why and made(crate, jobs, compilers)
        crate.out.seek(0)
        said = crate.out.read()
    found = re.search(r"^logic=proved functions=(\d+)", said, re.M)
    text = f"{crate.name}: {found[1]} functions proved in {time.monotonic() - began:.0f} seconds" if is_well and found else ""
    tally.note(is_well, crate.name, text if is_well else f"{crate.name} is not proved: {why or ''}\n{said}")
    return is_well


def made(crate, jobs, compilers):
    """Proves the crate, and makes of it what others use. Returns whether that went well."""
    if crate.is_program:
        return crate.prove_program(jobs, compilers)
    return crate.prove_static(jobs) if crate.is_static else crate.prove_library(jobs)


def wrong_bodies(crate, jobs, tally):
    """Tries the crate's must-fail edits, and the harmless ones beside them."""
    told = edits.try_edits(crate, jobs, sorted(glob.glob(f"{HARMLESS}/{crate.name}/*.edit")))
    for is_well, text in told:
        tally.note(is_well, text.partition(": ")[0], text)
    return all(is_well for is_well, _ in told)


def tests(crate, tally):
    """Builds the crate's tests with checks, and runs them."""
    ran = subprocess.run(["rt", "try", "--test"], cwd=crate.folder, stdin=subprocess.DEVNULL, stdout=subprocess.PIPE, stderr=subprocess.STDOUT, text=True, errors="replace")
    found = re.search(r"^test result: ok\. ([1-9]\d*) passed; 0 failed; 0 ignored; 0 filtered out$", ran.stdout, re.M)
    is_well = bool(found) and not ran.returncode
    tally.note(is_well, f"{crate.name} (tests)", f"{crate.name}: {found[1]} tests passed" if is_well else f"{crate.name}: its tests failed\n{ran.stdout}")
    return is_well


def tasks_of(found, tally, kinds, is_kept=False):
    """What there is to do for these crates: proofs, edits behind them, and tests, which wait for nothing. A crate that holds tests
    alone is not proved. With kept work, what is built and unchanged is left as it is, and a program is built by LLVM alone."""
    stood_on = {dep.name for it in found for dep in it.deps}
    compilers = [*kit.rt.BACKENDS][: 1 if is_kept else None]
    for crate in found:
        lines, needs, has_tests = crate.count(rb"\n"), kit.rt.need(crate), crate.has_tests()
        if has_tests and "tests" in kinds:
            yield lanes.Task(crate.name, "tests", [], lines, needs, lambda jobs, it=crate: tests(it, tally))
        if has_tests and crate.name not in stood_on:
            continue
        below = [(it.name, "proof") for it in crate.deps]
        done = is_kept and crate.makes_rlib() and crate.is_built()
        yield lanes.Task(crate.name, "proof", below, lines, needs, lambda jobs, it=crate, done=done: done or proof(it, jobs, tally, compilers))
        wrong = sum(map(len, kit.rt.edits_of(crate)))
        if "edits" in kinds and wrong:
            # (over kept work a check takes far less memory than from nothing)
            behind = lines // 2 + 20 * wrong
            yield lanes.Task(crate.name, "edits", [(crate.name, "proof")], behind, needs // 2, lambda jobs, it=crate: wrong_bodies(it, jobs, tally))


def do(tasks, tally):
    """Does it all. Returns for each crate and kind of task whether it went well; nothing is lost that no tally has."""
    given = lanes.run([*tasks])
    lost = [" ".join(it) for it, is_well in given.items() if not is_well]
    if not tally.failed:
        tally.failed += lost
    return given
