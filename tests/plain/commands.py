"""The ten commands: what each checks and changes, and under which marks it runs.

A command is a tuple of its word and what follows it: ("migrate", 10, ("a", "b"))."""
from dataclasses import replace
from math import inf

from .tree import ROOT, Group, Refused, above, in_order, is_prefix

WORDS = ("create", "remove", "migrate", "subtree", "freeze", "cpus", "show", "online", "maxdescendants", "maxdepth")


def answer_on(tree, command):
    """What a command is answered on the tree, which it changes where it is accepted."""
    try:
        text = carry_out(tree, command)
    except Refused as refusal:
        return f"refused {refusal}"
    return "done" if text is None else f"text {quoted(text)}"


def quoted(text):
    for special, word in (("\\", "\\\\"), ('"', '\\"'), ("\n", "\\n")):
        text = text.replace(special, word)
    return f'"{text}"'


def carry_out(tree, command):
    """Checks a command and changes the tree. Gives the text that it shows, where it shows one."""
    match command:
        case "create", path:
            create(tree, path)
        case "remove", path:
            remove(tree, path)
        case "migrate", pid, path:
            migrate(tree, pid, path)
        case "subtree", path, plus, minus:
            subtree(tree, path, plus, minus)
        case "freeze", path, value:
            write(tree, path, "cgroup.freeze", freeze=value)
        case "cpus", path, cpus:
            write(tree, path, "cpuset.cpus", cpus=cpus)
        case "show", path, file:
            return tree.file(path, file)
        case "online", cpus:
            tree.online = cpus
        case "maxdescendants", path, limit:
            write(tree, path, "cgroup.max.descendants", max_descendants=limit)
        case "maxdepth", path, limit:
            write(tree, path, "cgroup.max.depth", max_depth=limit)
    return None


def write(tree, path, file, **settings):
    """Writes to an interface file, which gives the group these settings."""
    tree.check_file(path, file)
    change(tree, path, **settings)


def change(tree, path, **settings):
    tree.groups[path] = replace(tree.groups[path], **settings)


def create(tree, path):
    if path == ROOT:
        raise Refused("7 exists")
    tree.group(path[:-1])
    if path in tree.groups:
        raise Refused("7 exists")
    if any(len(tree.descendants(it)) >= tree.groups[it].max_descendants for it in limited_above(tree, path)):
        raise Refused("22 toomany")
    if any(len(path) - len(it) > tree.groups[it].max_depth for it in above(path)):
        raise Refused("23 toodeep")
    tree.groups[path] = Group()


def limited_above(tree, path):
    """The groups above a path of which the descendants are limited in number."""
    return [it for it in above(path) if it in tree.groups and tree.groups[it].max_descendants < inf]


def remove(tree, path):
    if path == ROOT:
        raise Refused("8 isroot")
    tree.group(path)
    if tree.children(path):
        raise Refused("9 haschildren")
    if tree.processes(path):
        raise Refused("10 hasprocesses")
    del tree.groups[path]


def migrate(tree, pid, path):
    if pid not in tree.places:
        raise Refused("11 noprocess")
    if tree.group(path).control and path != ROOT:
        raise Refused("12 controlled")
    tree.places[pid] = path


def subtree(tree, path, plus, minus):
    control = tree.group(path).control
    for controller in in_order(plus - control - tree.available(path)):
        raise Refused(f"13 unavailable {controller}")
    for controller in in_order(minus & control):
        if any(controller in tree.groups[child].control for child in tree.children(path)):
            raise Refused(f"14 inuse {controller}")
    left = (control | plus) - minus
    if left and path != ROOT and tree.processes(path):
        raise Refused("10 hasprocesses")
    if "cpuset" in control - left:
        for child in tree.children(path):
            change(tree, child, cpus=frozenset())
    change(tree, path, control=left)


def footprint(tree, command):
    """The marks of a command: a subtree to be changed (X) or read (S), a group that stays (N), a process, a number of
    descendants."""
    match command:
        case "create" | "remove", path:
            return [("X", path), *(("Count", it) for it in limited_above(tree, path))]
        case "migrate", pid, path:
            here = [("N", tree.places[pid])] if pid in tree.places else []
            return [("Pid", pid), ("N", path), *here]
        case "show", path, _:
            return [("S", path)]
        case "online", _:
            return [("X", ROOT)]
        case _, path, *_:
            return [("X", path)]


def clash(marks, others):
    return any(marks_clash(mark, other) for mark in marks for other in others)


def marks_clash(mark, other):
    """Two transactions can't have these at once."""
    match mark, other:
        case (("X", p), ("X" | "S", q)) | (("S", p), ("X", q)):
            return is_prefix(p, q) or is_prefix(q, p)
        case (("X" | "S", p), ("N", q)) | (("N", q), ("X" | "S", p)):
            return is_prefix(p, q)
        case ("Pid" | "Count", _), _:
            return mark == other
    return False
