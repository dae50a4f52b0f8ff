"""Long schedules over worlds of several sizes.

A world has 1,000, 10,000 or 100,000 groups, 100 children to a group, and a hundredth as many processes. A schedule has
so many lines: groups that are made and taken away, processes that are moved, groups that are frozen and thawed, files that are
read, or a controller that is passed on to the 100 children of the root or not, all in one transaction. Over the world of
100,000 groups follow 1,000 transactions that are open at once, each with ten groups that it froze, and one of 100,000 commands
that are undone one by one, or taken off by its abort; and a quarter of each."""
import random
import tempfile

from .runs import run, write

SIZES = (1_000, 10_000, 100_000)
CHILDREN = 100


def paths(count):
    """The paths of groups but the root, CHILDREN to a group, parents first."""
    made = [""]
    for parent in made:
        for child in range(CHILDREN):
            if len(made) > count:
                return made[1:]
            made.append(f"{parent}/g{child:02}")
    return made[1:]


def world(groups, pids):
    yield "world 1"
    yield "controllers cpuset cpu memory"
    yield "online 0-7"
    yield "group / - 0 -"
    for path in groups:
        yield f"group {path} - 0 -"
    for pid in pids:
        yield f"proc {pid} {groups[pid % len(groups)]}"
    yield "end"


def made_and_taken_away(groups, pids, lines, chance):
    for step in range(lines // 2):
        path = f"{chance.choice(groups)}/new{step % 10}"
        yield f"create {path}"
        yield f"remove {path}"


def moved(groups, pids, lines, chance):
    for _ in range(lines):
        yield f"migrate {chance.choice(pids)} {chance.choice(groups)}"


def frozen(groups, pids, lines, chance):
    for step in range(lines):
        yield f"freeze {chance.choice(groups)} {step % 2}"


def read(groups, pids, lines, chance):
    for _ in range(lines):
        yield f"show {chance.choice(groups)} cgroup.freeze"


def passed_on(groups, pids, lines, chance):
    for step in range(lines):
        yield f"subtree / {'+-'[step % 2]}cpu"


def open_at_once(leaves, transactions):
    for name in range(transactions):
        yield f"s{name} begin"
    for step in range(10):
        for name in range(transactions):
            yield f"s{name} freeze {leaves[10 * name + step]} 1"


def undone(leaves, commands):
    yield "A begin"
    for step in range(commands):
        yield f"A freeze {leaves[step % 10]} {step // 10 % 2}"
    for _ in range(commands):
        yield "A undo"
    yield "A abort"


def aborted(leaves, commands):
    yield "A begin"
    for step in range(commands):
        yield f"A freeze {leaves[step % 10]} {step // 10 % 2}"
    yield "A abort"


def measure(program, count):
    """For each the wall seconds, the seconds beyond those of an empty schedule over the same world, and the greatest memory."""
    print(f"{'groups':>8} {'schedule':<22} {'seconds':>8} {'beyond':>8} {'MiB':>7}")
    for size in SIZES:
        groups = paths(size - 1)
        pids = range(1, size // 100 + 1)
        with tempfile.TemporaryDirectory() as folder:
            write(f"{folder}/world", world(groups, pids))
            write(f"{folder}/schedule", [])
            empty, memory, _ = run(program, folder)
            print(f"{size:>8} {'empty':<22} {empty:>8.2f} {'':>8} {memory:>7.0f}")
            for kind in (made_and_taken_away, moved, frozen, read, passed_on):
                lines = kind(groups, pids, count - 2, random.Random(1))
                write(f"{folder}/schedule", (f"A {line}" for line in ("begin", *lines, "commit")))
                seconds, memory, _ = run(program, folder)
                print(f"{size:>8} {kind.__name__:<22} {seconds:>8.2f} {seconds - empty:>8.2f} {memory:>7.0f}")
            if size < SIZES[-1]:
                continue
            leaves = [path for path in groups if path.count("/") == 3]
            for kind, whole in ((open_at_once, 1_000), (undone, 100_000), (aborted, 100_000)):
                for part in (whole // 4, whole):
                    write(f"{folder}/schedule", kind(leaves, part))
                    seconds, memory, _ = run(program, folder)
                    print(f"{size:>8} {f'{kind.__name__} {part}':<22} {seconds:>8.2f} {seconds - empty:>8.2f} {memory:>7.0f}")
