"""World texts, each looked at for all that may be wrong with it: its grammar, and that its tree is sound."""
from math import inf

from .texts import Malformed, lines, read_cpus, read_flag, read_limit, read_path, read_pid
from .tree import CONTROLLERS, ROOT, Group, Tree

MOST_BYTES = 16_777_216
GREATEST_CPU = {"1": 127, "2": 1_023}


def read_sound_world(text):
    """The tree of the text up to its line `end`; what stands behind that isn't looked at."""
    rows = statements(text)
    version = version_of(next(rows, None))
    tree = Tree(controllers_of(next(rows, None)), online_of(next(rows, None), version), {}, {})
    for row in rows:
        match row:
            case ["group", path, control, freeze, cpus, *limits] if not tree.places and len(limits) == (version == "2") * 2:
                group = Group(control_of(control), read_flag(freeze), wish_of(cpus, version), *map(read_limit, limits or ["max", "max"]))
                add(tree.groups, read_path(path), group)
            case ["proc", pid, path] if tree.groups:
                add(tree.places, read_pid(pid), read_path(path))
            case _:
                raise Malformed
    if not is_sound(tree):
        raise Malformed
    return tree


def statements(text):
    """The words of each line up to `end`, which has to be there, and in the first bytes that a text may have."""
    for number, words in lines(text[:MOST_BYTES + 1]):
        if words is None:
            raise Malformed
        if words == ["end"]:
            behind = sum(len(line) + 1 for line in text.split(b"\n")[:number])
            if min(behind, len(text)) > MOST_BYTES:
                raise Malformed
            return
        yield words
    raise Malformed


def version_of(words):
    if words not in (["world", "1"], ["world", "2"]):
        raise Malformed
    return words[1]


def controllers_of(words):
    if not words or words[0] != "controllers":
        raise Malformed
    return names(words[1:])


def online_of(words, version):
    if not words or len(words) != 2 or words[0] != "online":
        raise Malformed
    return cpus_of(words[1], version)


def control_of(word):
    return frozenset() if word == "-" else names(word.split(","))


def wish_of(word, version):
    return frozenset() if word == "-" else cpus_of(word, version)


def cpus_of(word, version):
    cpus = read_cpus(word)
    if max(cpus) > GREATEST_CPU[version]:
        raise Malformed
    return cpus


def names(words):
    if not set(words) <= set(CONTROLLERS) or len(set(words)) < len(words):
        raise Malformed
    return frozenset(words)


def add(entries, key, value):
    if key in entries:
        raise Malformed
    entries[key] = value


def is_sound(tree):
    root = tree.groups.get(ROOT)
    if not root or root.freeze or root.cpus or not root.control <= tree.controllers:
        return False
    for path, group in tree.groups.items():
        if path == ROOT:
            continue
        parent = tree.groups.get(path[:-1])
        if not parent or not group.control <= parent.control or group.cpus and "cpuset" not in parent.control:
            return False
    places = (tree.groups.get(path) and (path == ROOT or not tree.groups[path].control) for path in tree.places.values())
    return all(places)
