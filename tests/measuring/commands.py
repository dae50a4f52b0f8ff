"""Each command once, over one large world.

The world has 100,000 groups, 100 children to a group, and 1,000 processes. Of the second world of `diff` and `plan`, the last 1,000
groups are gone and 1,000 are new, 1,000 are frozen, and each process is in another group. The schedule has 100,000 lines in one
transaction: of ten lines one makes a group that is there, and of a hundred one takes a group away that has children, which are
refused; the others freeze groups and thaw them. `import` reads a folder that looks like a mounted tree of these groups."""
import os
import tempfile

from .runs import run_words, write
from .worlds import paths, world

SIZE = 100_000
CHANGED = 1_000
PROCESSES = 1_000
LINES = 100_000

# The files of a group that an import reads, and what stands in them.
FILES = {
    "cgroup.freeze": "0\n",
    "cgroup.max.depth": "max\n",
    "cgroup.max.descendants": "max\n",
    "cgroup.procs": "",
    "cgroup.subtree_control": "",
    "cgroup.type": "domain\n",
}

# So many folders share the files of one, by links: a file has at most 65,000 names on some devices.
SHARED = 50_000


def changed_world(groups, pids):
    """The lines of the second world."""
    kept = groups[:-CHANGED]
    frozen = {*kept[-CHANGED:]}
    yield "world 1"
    yield "controllers cpuset cpu memory"
    yield "online 0-7"
    yield "group / - 0 -"
    for path in kept:
        yield f"group {path} - {int(path in frozen)} -"
    for path in kept[-CHANGED:]:
        yield f"group {path}/new - 0 -"
    for pid in pids:
        yield f"proc {pid} {kept[-pid]}"
    yield "end"


def schedule(groups):
    """Its lines. The first groups have children."""
    yield "A begin"
    for step in range(LINES):
        if step % 100 == 0:
            yield f"A remove {groups[step // 100 % 900]}"
        elif step % 10 == 0:
            yield f"A create {groups[step]}"
        else:
            yield f"A freeze {groups[step % len(groups)]} {step // len(groups) % 2}"
    yield "A commit"


def make_tree(root, groups):
    """Makes a folder that looks like a mounted tree of these groups."""
    os.mkdir(root)
    for name, text in (FILES | {"cgroup.controllers": "cpuset cpu memory\n", "cpuset.cpus.effective": "0-7\n"}).items():
        if name not in ("cgroup.freeze", "cgroup.type"):
            write_text(f"{root}/{name}", text)
    shared = root
    for number, path in enumerate(groups):
        folder = f"{root}{path}"
        os.mkdir(folder)
        if number % SHARED == 0:
            shared = folder
            for name, text in FILES.items():
                write_text(f"{folder}/{name}", text)
        else:
            for name in FILES:
                os.link(f"{shared}/{name}", f"{folder}/{name}")


def write_text(file, text):
    with open(file, "w") as it:
        it.write(text)


def commands(folder, groups):
    """The words of each command, and the status that it ends with."""
    one, two, played = (f"{folder}/{it}" for it in ("world", "changed", "schedule"))
    yield ["show", one, groups[0], "cgroup.events"], 0
    yield ["tree", one], 0
    yield ["diff", one, two], 1
    yield ["plan", one, two], 0
    yield ["plan", "--shell", one, two], 0
    yield ["check", one], 0
    yield ["check", played], 0
    yield ["replay", one, played], 0
    yield ["replay", "--echo", "--explain", one, played], 0
    yield ["import", f"{folder}/tree"], 0


def measure(program):
    """For each command the wall seconds, the greatest memory, and how much it writes."""
    groups = paths(SIZE - 1)
    pids = range(1, PROCESSES + 1)
    print(f"{'command':<40} {'seconds':>8} {'MiB':>7} {'written':>9}")
    with tempfile.TemporaryDirectory() as folder:
        write(f"{folder}/world", world(groups, pids))
        write(f"{folder}/changed", changed_world(groups, pids))
        write(f"{folder}/schedule", schedule(groups))
        make_tree(f"{folder}/tree", groups)
        for words, status in commands(folder, groups):
            seconds, memory, _ = run_words([program, *words], folder, status)
            told = " ".join(words).replace(f"{folder}/", "")
            print(f"{told:<40} {seconds:>8.2f} {memory:>7.0f} {os.path.getsize(f'{folder}/out'):>9}", flush=True)
