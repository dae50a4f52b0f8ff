"""The tree, what is derived from it, and its interface files."""
from dataclasses import dataclass
from math import inf

# In the order in which the kernel prints them.
CONTROLLERS = ("cpuset", "cpu", "io", "memory", "hugetlb", "pids", "rdma", "misc")

FILES = (
    "cgroup.procs",
    "cgroup.controllers",
    "cgroup.subtree_control",
    "cgroup.events",
    "cgroup.freeze",
    "cpuset.cpus",
    "cpuset.cpus.effective",
    "cgroup.max.descendants",
    "cgroup.max.depth",
)

# A path is a tuple of names.
ROOT = ()


class Refused(Exception):
    """Why a request is refused: the number, the word and the argument, as they are printed."""


@dataclass(frozen=True)
class Group:
    """The settings of a group. A limit that is `max` is infinite."""

    control: frozenset = frozenset()
    freeze: bool = False
    cpus: frozenset = frozenset()
    max_descendants: float = inf
    max_depth: float = inf


@dataclass
class Tree:
    controllers: frozenset
    online: frozenset
    groups: dict
    places: dict

    def copy(self):
        return Tree(self.controllers, self.online, dict(self.groups), dict(self.places))

    def group(self, path):
        """The settings of a group, which has to be there."""
        if path not in self.groups:
            raise Refused("6 nogroup")
        return self.groups[path]

    def children(self, path):
        return [it for it in self.groups if it != ROOT and it[:-1] == path]

    def descendants(self, path):
        return [it for it in self.groups if it != path and is_prefix(path, it)]

    def processes(self, path):
        """The PIDs of the processes that are in the group itself."""
        return sorted(pid for pid, place in self.places.items() if place == path)

    def available(self, path):
        """The controllers that a group has, which is there."""
        return self.controllers if path == ROOT else self.groups[path[:-1]].control

    def is_populated(self, path):
        return any(is_prefix(path, place) for place in self.places.values())

    def is_frozen(self, path):
        return any(self.groups[it].freeze for it in [*above(path), path])

    def effective_cpus(self, path):
        """What the group asks for of its parent's, and all of these where that is nothing."""
        if path == ROOT:
            return self.online
        parents = self.effective_cpus(path[:-1])
        return self.groups[path].cpus & parents or parents

    def has_file(self, path, file):
        match file:
            case "cgroup.events" | "cgroup.freeze":
                return path != ROOT
            case "cpuset.cpus":
                return path != ROOT and "cpuset" in self.available(path)
            case "cpuset.cpus.effective":
                return "cpuset" in self.available(path)
        return True

    def check_file(self, path, file):
        """The group has to be there, and to have this file."""
        self.group(path)
        if not self.has_file(path, file):
            raise Refused("15 nofile")

    def file(self, path, file):
        """What an interface file of a group holds."""
        self.check_file(path, file)
        group = self.group(path)
        match file:
            case "cgroup.procs":
                return "".join(f"{pid}\n" for pid in self.processes(path))
            case "cgroup.controllers":
                return named(self.available(path))
            case "cgroup.subtree_control":
                return named(group.control)
            case "cgroup.events":
                return f"populated {self.is_populated(path):d}\nfrozen {self.is_frozen(path):d}\n"
            case "cgroup.freeze":
                return f"{group.freeze:d}\n"
            case "cpuset.cpus":
                return f"{cpu_list(group.cpus)}\n"
            case "cpuset.cpus.effective":
                return f"{cpu_list(self.effective_cpus(path))}\n"
            case "cgroup.max.descendants":
                return f"{limit_word(group.max_descendants)}\n"
            case "cgroup.max.depth":
                return f"{limit_word(group.max_depth)}\n"


def is_prefix(front, path):
    """The second path begins with the first, or is the first."""
    return path[: len(front)] == front


def above(path):
    """The paths of the groups above, the root first."""
    return [path[:length] for length in range(len(path))]


def in_order(controllers):
    return [it for it in CONTROLLERS if it in controllers]


def named(controllers):
    """A set of controllers as a line; the empty set has none."""
    return " ".join(in_order(controllers)) + "\n" if controllers else ""


def cpu_list(cpus):
    """A set of CPUs as its longest runs, ascending."""
    firsts = sorted(it for it in cpus if it - 1 not in cpus)
    lasts = sorted(it for it in cpus if it + 1 not in cpus)
    return ",".join(f"{first}" if first == last else f"{first}-{last}" for first, last in zip(firsts, lasts))


def limit_word(limit):
    return "max" if limit == inf else str(limit)
