"""Runs tasks side by side, as many as there are processors and memory, those first that most work waits for."""
import os
import threading
from dataclasses import dataclass, field
from queue import Queue

from .kit import rt

# How much a task of each kind gives way to the others, where all want a processor: what nothing waits for gives way. Tests have
# times in which they must end, and don't.
NICE = {"proof": 0, "edits": 10, "tests": 0}


@dataclass
class Task:
    """Work of a kind: its name, what it waits for, about how long it takes, the memory that it needs, and what does it, given
    how many processes it may use. It gives whether all went well."""

    name: str
    kind: str
    waits: list
    lines: int
    needs: int
    work: object
    behind: int = field(default=0)

    @property
    def key(self):
        return self.name, self.kind


def rank(tasks):
    """Notes for each task the work of the longest chain that begins with it."""
    known = {it.key: it for it in tasks}
    above = {it.key: [] for it in tasks}
    for it in tasks:
        for key in it.waits:
            above[key].append(it)

    def behind(it):
        if not it.behind:
            it.behind = it.lines + max((behind(other) for other in above[it.key]), default=0)
        return it.behind

    for it in known.values():
        behind(it)


def start(task, jobs, nice, ended):
    """Works in a thread of its own, whose processes give way as the thread does."""

    def work():
        os.setpriority(os.PRIO_PROCESS, threading.get_native_id(), min(19, os.getpriority(os.PRIO_PROCESS, 0) + nice))
        try:
            is_well = task.work(jobs)
        except BaseException as fault:
            print(f"{task.name}: {task.kind}: {fault!r}", flush=True)
            is_well = False
        ended.put((task, is_well))

    threading.Thread(target=work, daemon=True).start()


def has_lane(task, running, processors):
    """Whether a task may begin beside these. Proofs have as many lanes as there are processors. Whatever gives way to them has those
    that they leave, and half of all at least."""
    proofs = sum(it.kind == "proof" for it in running)
    if task.kind == "proof":
        return proofs < processors
    return len(running) - proofs < max(processors - proofs, processors // 2, 1)


def run(tasks):
    """Runs all tasks, and gives for each whether it went well. What waits for one that didn't isn't begun, and didn't either."""
    rank(tasks)
    processors, memory = rt.processors(), 0.85 * rt.free()
    left, running, given, ended = sorted(tasks, key=lambda it: (it.kind != "proof", -it.behind)), [], {}, Queue()
    while left or running:
        for it in [it for it in left if any(given.get(key) is False for key in it.waits)]:
            left.remove(it)
            given[it.key] = False
        ready = [it for it in left if all(given.get(key) for key in it.waits)]
        for task in ready:
            if not has_lane(task, running, processors):
                continue
            if running and task.needs > memory - sum(it.needs for it in running):
                if task.kind == "proof":
                    # it gets what becomes free before any edit does
                    break
                continue
            first = task.kind == "proof" and all(it.behind < task.behind for it in running if it.kind == "proof")
            left.remove(task)
            running.append(task)
            # (a second process in a check costs a fifth more processor time and saves a fifth of wall time; more cost more and save none)
            jobs = 2 if first and processors >= 4 else 1
            start(task, jobs, NICE[task.kind] if first or task.kind != "proof" else 5, ended)
        if running:
            task, is_well = ended.get()
            running.remove(task)
            given[task.key] = is_well
    return given
