"""A page of measures: of what kind the computer is, the workloads beside another program, long schedules over large worlds, each
command over one large world, the program's start, calls of the library for C, and views."""
import contextlib
import datetime
import os
import statistics
import subprocess
import tempfile
import time

from . import commands, views, worlds
from .runs import run, write

HERE = os.path.dirname(os.path.realpath(__file__))
TOP = os.path.dirname(os.path.dirname(HERE))
STARTS = 200
STEPS = 1_000_000
PER_TRANSACTION = 1_000


def computer():
    """What the processors and the memory are, in a line."""
    with open("/proc/cpuinfo") as text:
        kinds = {line.split(":", 1)[1].strip() for line in text if line.startswith("model name")}
    memory = os.sysconf("SC_PAGE_SIZE") * os.sysconf("SC_PHYS_PAGES") / 2**30
    return f"{len(os.sched_getaffinity(0))} processors ({', '.join(sorted(kinds)) or 'unknown'}), {memory:.0f} GiB of memory"


def versions(program):
    """What the program says of itself, and the kit."""
    told = [subprocess.run(words, capture_output=True, text=True).stdout.strip() for words in ([program, "--version"], ["rt", "version"])]
    return ", ".join(told)


@contextlib.contextmanager
def table(title):
    """A part of the page, whose lines stand as they are printed."""
    print(f"\n## {title}\n\n```", flush=True)
    yield
    print("```", flush=True)


def starts(program):
    """The milliseconds of runs over the smallest world with no line of a schedule."""
    with tempfile.TemporaryDirectory() as folder:
        write(f"{folder}/world", ["world 1", "controllers", "online 0", "group / - 0 -", "end"])
        write(f"{folder}/schedule", [])
        taken = []
        for _ in range(STARTS):
            begun = time.monotonic()
            subprocess.run([program, "replay", f"{folder}/world", f"{folder}/schedule"], stdout=subprocess.DEVNULL, check=True)
            taken.append(1000 * (time.monotonic() - begun))
    return taken


def steps():
    """Lines of a schedule that freeze groups and thaw them, in transactions of a thousand."""
    for number in range(STEPS // PER_TRANSACTION):
        yield "A begin"
        for step in range(PER_TRANSACTION):
            yield f"A freeze /g{step % 100} {(step // 100 + number) % 2}"
        yield "A commit"


def calls(program):
    """The seconds of a schedule that the program replays, and of the same one by calls of the library for C."""
    with tempfile.TemporaryDirectory() as folder:
        write(f"{folder}/world", ["world 1", "controllers", "online 0", "group / - 0 -", *(f"group /g{it} - 0 -" for it in range(100)), "end"])
        write(f"{folder}/schedule", steps())
        subprocess.run([f"{TOP}/tests/c_library", "--archive", f"{folder}/libcgtx.a"], check=True)
        client = ["cc", "-O2", f"-I{TOP}/include", "-o", f"{folder}/client", f"{TOP}/tests/clients/replay.c", f"{folder}/libcgtx.a"]
        subprocess.run(client, check=True)
        by_program = min(run(program, folder)[0] for _ in range(3))
        taken = []
        for _ in range(3):
            begun = time.monotonic()
            subprocess.run([f"{folder}/client", f"{folder}/world", f"{folder}/schedule"], stdout=subprocess.DEVNULL, check=True)
            taken.append(time.monotonic() - begun)
        return by_program, min(taken)


def measure(programs, workloads):
    """Prints the page. Returns how many outputs of workloads differ."""
    program = programs[0]
    print(f"# Measures of {datetime.date.today()}\n\n{versions(program)}, on {computer()}.")
    print(f"The load was {os.getloadavg()[0]:.1f} before. What each table has is said in `tests/measures`.")
    with table("Workloads" + " beside the other programs" * (len(programs) > 1)):
        different = workloads(programs)
    with table("Long schedules over large worlds"):
        worlds.measure(program, 200_000)
    with table("Each command over one large world"):
        commands.measure(program)
    with table("The program's start, and the library for C"):
        taken = starts(program)
        print(f"a start: {statistics.median(taken):.1f} ms, at least {min(taken):.1f} ms")
        by_program, by_calls = calls(program)
        print(f"{STEPS:,} commands: {by_program:.2f} s by the program, {by_calls:.2f} s by calls from C")
    with table("Views"):
        views.measure()
    return different
