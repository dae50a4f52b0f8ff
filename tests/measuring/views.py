"""Views beside a desk: reads a second, the longest read, commits a second.

The program (views.txt) is proved and built in a folder of its own, over the libraries as they are built here. In each measure
so many Viewers read one file of a Publisher again and again for a second, each in a thread, while a session of a desk commits
small transactions, publishes each or not, or does nothing; at last while one call holds the desk's lock about as long, as it
publishes some 500,000 commands at once, and another one waits for the lock."""
import os
import shutil
import subprocess
import tempfile

from gating import kit

NAME = "cg_views"
NEEDS = "cg_view cg_desk cg_command_text cg_world_text cg_name"
MAIN = f"{os.path.dirname(os.path.realpath(__file__))}/views.txt"

VIEWERS = (1, 2, 4, 8)
TIMES = 3


def lay_out(room):
    """A repository with the crates that the program stands on, as they are built here, and the program's."""
    found = {it.name: it for it in kit.crates()}
    below = {low.name: low for it in NEEDS.split() for low in (found[it], *found[it].below())}
    for name, it in below.items():
        if not it.is_built():
            raise SystemExit(f"{name} isn't built: run tests/prove --program, and rt lib in crates/{name}")
        for part in ("src", "specs", "proofs", "out/rlib"):
            if os.path.isdir(f"{it.folder}/{part}"):
                shutil.copytree(f"{it.folder}/{part}", f"{room}/crates/{name}/{part}", copy_function=os.link)
    os.makedirs(f"{room}/crates/{NAME}/src")
    shutil.copy(MAIN, f"{room}/crates/{NAME}/src/main.rt")
    shutil.copy(f"{kit.TOP}/HANDLES", room)
    with open(f"{kit.TOP}/crates.txt") as lines, open(f"{room}/crates.txt", "w") as out:
        out.writelines(line for line in lines if line.split(":")[0] in below)
        out.write(f"{NAME}: {NEEDS}\n")


def build(room):
    """The built program."""
    lay_out(room)
    folder = f"{room}/crates/{NAME}"
    ran = subprocess.run(["rt", "run"], cwd=folder, capture_output=True, text=True)
    program = f"{folder}/out/{NAME}"
    if not os.path.exists(program):
        raise SystemExit(f"the program isn't built\n{ran.stdout}{ran.stderr}")
    return program


def measured(program, viewers, beside):
    """Of several runs the median by reads, or where there is no Viewer by commits: reads, the nanoseconds of the longest read, commits,
    their nanoseconds, those of a wait for the lock."""
    runs = []
    for _ in range(TIMES):
        ran = subprocess.run([program, str(viewers), beside], capture_output=True, text=True)
        try:
            runs.append([*map(int, ran.stdout.split())])
        except ValueError:
            raise SystemExit(f"{beside} with {viewers} viewers: {ran.stdout}{ran.stderr}") from None
    return sorted(runs, key=lambda it: it[0] or it[2])[TIMES // 2]


def measure():
    with tempfile.TemporaryDirectory(dir=f"{kit.TOP}/.git") as room:
        program = build(room)
        print(f"{'the desk':<34} {'viewers':>7} {'reads a second':>14} {'longest read, us':>16} {'commits a second':>16}")
        for beside, text in (("still", "does nothing"), ("commits", "commits"), ("publishes", "commits, and publishes each")):
            for viewers in VIEWERS if beside == "still" else (0, *VIEWERS):
                reads, longest, commits, nanos, _ = measured(program, viewers, beside)
                row = [f"{reads:,}", f"{longest / 1e3:,.0f}"] if viewers else ["", ""]
                row += [f"{commits / nanos * 1e9:,.0f}" if commits else ""]
                print(f"{text:<34} {viewers:>7} {row[0]:>14} {row[1]:>16} {row[2]:>16}", flush=True)
        for viewers in VIEWERS:
            reads, longest, _, held, waited = measured(program, viewers, "held")
            text = f"its lock is held for {held / 1e6:,.0f} ms"
            print(f"{text:<34} {viewers:>7} {reads / held * 1e9:>14,.0f} {longest / 1e3:>16,.0f}   another call waited {waited / 1e6:,.0f} ms", flush=True)
