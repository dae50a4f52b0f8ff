#!/usr/bin/env python3
"""The supervisor of examples/c, in Python. Its word is the shared library; it prints what supervisor.c prints."""
import sys

from cgtx import Machine

WORLD = b"""world 2
controllers cpuset cpu memory
online 0-7
group / cpu,memory 0 - max max
group /batch - 0 - max max
group /system - 0 - max max
proc 1 /system
proc 40 /
proc 41 /
end
"""
TWO_WORKERS = b"""create /system/web
create /system/web/one
create /system/web/two
migrate 40 /system/web/one
migrate 41 /system/web/two"""
ONE_WORKER = b"""create /system/web
maxdescendants /system/web 0
migrate 40 /system/web"""


def ask(machine, line):
    """Asks, prints the answer, and gives it."""
    answer = machine.step(line)
    print(f"{line.decode():<44} {answer.decode()}")
    return answer


def ask_all(machine, lines):
    """Asks for several things, until one is refused. Gives the last answer."""
    for line in lines.splitlines():
        answer = ask(machine, b"supervisor " + line)
        if answer.startswith(b"refused"):
            break
    return answer


def start_service(machine):
    """Starts the service, with one worker where another session is in the way of two, and says how."""
    ask(machine, b"supervisor begin")
    ask(machine, b"supervisor save before")
    how, answer = "with two workers", ask_all(machine, TWO_WORKERS)
    if answer.startswith(b"refused 5 busy"):
        ask(machine, b"supervisor back before")
        how, answer = "with one worker", ask_all(machine, ONE_WORKER)
    if answer.startswith(b"refused"):
        ask(machine, b"supervisor abort")
        return "not"
    ask(machine, b"supervisor commit")
    return how


def main(library):
    machine = Machine(library, WORLD, 1000)
    for line in (b"operator begin", b"operator create /batch/night", b"operator migrate 41 /batch/night"):
        ask(machine, line)
    how = start_service(machine)
    print(f"the service runs {how}; transactions open: {machine.open_count()}")
    for answer in machine.aborts():
        print(f"{'(at the end)':<44} {answer.decode()}")
    print(f"in /system/web: {machine.file(b'/system/web', b'cgroup.procs').decode()}", end="")
    print(machine.world().decode(), end="")
    machine.close()


if __name__ == "__main__":
    main(*sys.argv[1:])
