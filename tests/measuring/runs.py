"""One run of a program, measured."""
import hashlib
import os
import subprocess
import sys
import time


def run(program, folder):
    """The wall seconds of a replay of the folder's files, its greatest memory in MiB, and what tells its output from others."""
    return run_words([program, "replay", f"{folder}/world", f"{folder}/schedule"], folder)


def run_words(words, folder, status=0):
    """The same of a command that ends with this status. Its output is the folder's file `out`."""
    # By a process of its own, since what a process had before it became the program counts as the program's memory.
    ran = subprocess.run([sys.executable, "-S", __file__, folder, str(status), *words], capture_output=True, text=True)
    if ran.returncode:
        sys.exit(ran.stderr)
    seconds, memory = map(float, ran.stdout.split())
    with open(f"{folder}/out", "rb") as out:
        return seconds, memory, hashlib.file_digest(out, "sha256").digest()


def write(path, lines):
    with open(path, "w") as out:
        out.writelines(f"{line}\n" for line in lines)


def measure(folder, wanted, *words):
    begun = time.monotonic()
    with open(f"{folder}/out", "wb") as out:
        child = subprocess.Popen(words, stdout=out)
        _, status, used = os.wait4(child.pid, 0)
    if os.waitstatus_to_exitcode(status) != int(wanted):
        sys.exit(f"{' '.join(words)} ended with {os.waitstatus_to_exitcode(status)}")
    print(time.monotonic() - begun, used.ru_maxrss / 1024)


if __name__ == "__main__":
    measure(*sys.argv[1:])
