"""Builds the program whose parts lie in this folder, with the front library linked into it, and runs it with worked runs.

It is built by the kit's try, with checks and with AddressSanitizer, and not proved. Its parts are texts in Rattle. They aren't
called so, since the kit wants each file of code in a crate that it proves."""
import os
import shutil
import subprocess

from faulty import front
from gating import kit

HERE = os.path.dirname(os.path.realpath(__file__))
NAME = "cg_calls"

# What the program stands on, as a line of crates.txt.
NEEDS = (
    "cg_view cg_desk cg_core cg_inverse cg_boxed cg_replay cg_script cg_program cg_command_text cg_world_text cg_world cg_txn cg_locks"
    " cg_command cg_derive cg_history cg_log cg_tree cg_lines cg_path_tree cg_places cg_text cg_name"
)

# The seconds that it may run.
SECONDS = 300


class Program(kit.rtlib.Crate):
    """The program's crate. In place of C code of its own it has the front library."""

    front = ""

    def c_code(self, into=None):
        return [self.front]


def write(file, text):
    with open(file, "wb") as it:
        it.write(text)


def read(file):
    with open(file, "rb") as it:
        return it.read()


def lay_out(room):
    """A repository with the code of this one's crates, and the program's."""
    for name in os.listdir(f"{kit.TOP}/crates"):
        shutil.copytree(f"{kit.TOP}/crates/{name}/src", f"{room}/crates/{name}/src")
    write(f"{room}/crates.txt", read(f"{kit.TOP}/crates.txt") + f"{NAME}: {NEEDS}\n".encode())
    os.makedirs(f"{room}/crates/{NAME}/src")
    for name in sorted(os.listdir(HERE)):
        if name.endswith(".txt"):
            write(f"{room}/crates/{NAME}/src/{name.removesuffix('.txt')}.rt", read(f"{HERE}/{name}"))


def build(room):
    """Builds the program in this folder, where nothing is. Its first run is the kit's: it copies the program to a file, which is
    returned, or nothing where that failed."""
    lay_out(room)
    program = f"{room}/program"
    write(f"{room}/keep", program.encode())
    write(f"{room}/page", bytes(front.PAGE))
    kit.rtlib.guarded()
    crate = Program(f"{room}/crates/{NAME}", room, {})
    crate.front = front.build_object(room)
    before = os.getcwd()
    os.chdir(crate.folder)
    try:
        status = crate.try_unproved(["--data", f"keep={room}/keep", "--data", f"page={room}/page"], [])
    finally:
        os.chdir(before)
    if status or not os.path.exists(program):
        return None
    os.chmod(program, 0o755)
    return program


def text_of(case):
    """A case as the program reads it: its name, the slots of its history, and the lengths of its texts; and these."""
    texts = case["world"], case["schedule"], case["output"], case["script"]
    head = " ".join([case["name"], str(case["slots"]), *(str(len(it)) for it in texts)])
    return head.encode() + b"\n" + b"".join(texts)


def run(program, cases, room):
    """Runs the program with these cases in a folder, where nothing is. Returns its status, and what it wrote and told."""
    write(f"{room}/cases", b"".join(map(text_of, cases)))
    write(f"{room}/page", bytes(front.PAGE))
    # as the kit's try starts what it has built
    libraries = f"{kit.rt.KIT}/toolchain/lib"
    words = [f"{libraries}/ld-linux-x86-64.so.2", "--inhibit-cache", "--library-path", libraries, program]
    try:
        ran = subprocess.run(words, cwd=room, env={}, stdin=subprocess.DEVNULL, capture_output=True, timeout=SECONDS)
    except subprocess.TimeoutExpired as fault:
        return "no end", fault.stdout or b"", fault.stderr or b""
    return ran.returncode, ran.stdout, ran.stderr
