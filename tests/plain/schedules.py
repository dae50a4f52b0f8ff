"""Worlds, and schedules over them, from seeds."""
from dataclasses import dataclass, replace
from math import inf
from random import Random

from . import commands, texts
from .tree import FILES, Group, Tree

SLOTS = 1_048_576
LINES = 60
SESSIONS = ("A", "b-2", "the_third", "4")

# One seed of so many has a small bound of the history.
BOUNDED = 25

# How often sessions ask, in one schedule or another: the fewer do, the less they are in each other's way.
SHARES = ((8, 3, 3, 3), (20, 1, 1, 1), (6, 6, 1, 1))

# Words with how often each is taken, beside the others. Of two names that begin alike the shorter one stands first, so what
# is below /a stands before /a!.
PATHS = {"/": 1, "/a": 3, "/a/b": 2, '"/a/b"': 1, "/a/b/c": 3, "/a/b/c/d": 1, "/a/c": 1, "/a!": 1}
PATHS |= {"/b": 3, "/b/c": 2, "/c": 1, '"/s t"': 1}
NEW_PATHS = {"/": 1, "/a": 1, "/a/b": 1, "/a/b/c/d": 2, "/a/c": 2, "/a/é": 1, "/a!": 2}
NEW_PATHS |= {"/b": 1, "/b/c/d": 2, "/c": 2, '"/s t"': 1}
PIDS = {"10": 6, "0011": 6, "300": 6, "4194303": 6, "99": 2}
LIMITS = {"0": 1, "1": 1, "2": 1, "05": 1, "2147483646": 1, "max": 1, "2147483647": 1}
CPUS = {"": 2, "1": 1, "1-2": 1, "2,3": 1, "0-7": 1, "5-7,04-6": 1, "126,127": 1, "127-128": 1, "1023,0-1": 1}
ENABLED = {"cpuset": 4, "cpu": 4, "memory": 3, "io": 1, "misc": 1}
SAVEPOINTS = {"one": 6, "x-2": 2, "THE_THIRD": 1}
COMMANDS = {"create": 13, "remove": 6, "migrate": 7, "subtree": 8, "freeze": 3, "cpus": 3, "show": 6}
COMMANDS |= {"online": 1, "maxdescendants": 2, "maxdepth": 2}
REQUESTS = {"begin": 3, "save": 6, "back": 6, "undo": 7, "commit": 5, "abort": 3, "command": 70}
SILENT = (" \t# a note", "", "\t", "# A begin")
MALFORMED = ("A create /a//b", "A begin now", "b-2 migrate 0 /a", "4 cpus /a 7-0", "A online", 'A create "/a\\t"')

# Which limits the groups of an opening tree get, two of these three, and how great each is at least.
LIMITING = ("maxdescendants", "maxdescendants", "maxdepth")
LEAST = {"/": 5, "/a": 2, "/b": 1}

OPENING = Tree(
    frozenset({"cpuset", "cpu", "io", "memory"}),
    frozenset({*range(8), 128}),
    {
        (): Group(frozenset({"cpuset", "cpu", "memory"})),
        ("a",): Group(frozenset({"cpuset", "cpu"})),
        ("a", "b"): Group(frozenset({"cpuset"})),
        ("a", "b", "c"): Group(cpus=frozenset({1, 2})),
        ("b",): Group(),
        ("b", "c"): Group(),
    },
    {10: (), 11: ("a", "b", "c"), 300: ("b",), 4_194_303: ()},
)


@dataclass(frozen=True)
class Case:
    """A world and a schedule over it, both in bytes, and the bound of the history. Where that is below SLOTS, the schedule's
    first line is `A begin`."""

    world: bytes
    schedule: bytes
    bound: int


def case_of(seed):
    chance = Random(seed)
    tree = opening(chance)
    is_bounded = seed % BOUNDED == 0
    first = ["A begin"] if is_bounded else []
    lines = [*first, *lines_of(chance, LINES - len(first), is_slow=seed % 3 == 0)]
    bound = chance.randrange(3, 62) if is_bounded else SLOTS
    return Case(texts.write_world(tree).encode(), "".join(f"{it}\n" for it in lines).encode(), bound)


def opening(chance):
    """A tree of some six groups over three levels. Half of them have what a world of version 1 can say."""
    tree = OPENING.copy()
    limits = [f"{chance.choice(LIMITING)} {path} {least + chance.randrange(4)}" for path, least in LEAST.items()]
    for line in [*(command(chance) for _ in range(6)), *chance.sample(limits, 2)]:
        commands.answer_on(tree, texts.read_request(texts.words_of(line.encode())))
    if chance.random() < 0.5:
        low = frozenset(range(128))
        tree.online = tree.online & low or frozenset({0})
        for path, group in tree.groups.items():
            tree.groups[path] = replace(group, cpus=group.cpus & low, max_descendants=inf, max_depth=inf)
    return tree


def lines_of(chance, count, is_slow):
    """So many lines. In a slow schedule few transactions end before the schedule does. Most often a session begins where it
    seems to have nothing open, and saves before it goes back."""
    saved, shares = {}, chance.choice(SHARES)
    for _ in range(count):
        kind = chance.randrange(80)
        if kind < 2:
            yield chance.choice((MALFORMED, SILENT)[kind])
            continue
        session = chance.choices(SESSIONS, shares)[0]
        request = "begin" if session not in saved and chance.random() < 0.8 else one_of(chance, REQUESTS)
        if request in ("commit", "abort") and is_slow and chance.random() < 0.75:
            request = "command"
        if request == "back" and not saved.get(session) and chance.random() < 0.8:
            request = "save"
        match request:
            case "begin":
                saved.setdefault(session, False)
            case "save" if session in saved:
                saved[session] = True
            case "commit" | "abort":
                saved.pop(session, None)
        yield f"{session} {words(chance, request)}"


def words(chance, request):
    if request == "command":
        return command(chance)
    if request in ("save", "back"):
        return f"{request} {one_of(chance, SAVEPOINTS)}"
    return request


def command(chance):
    """The words of a command."""
    word, path = one_of(chance, COMMANDS), one_of(chance, PATHS)
    match word:
        case "create":
            return f"create {one_of(chance, NEW_PATHS)}"
        case "remove":
            return f"remove {path}"
        case "migrate":
            return f"migrate {one_of(chance, PIDS)} {path}"
        case "subtree":
            return subtree(chance, path)
        case "freeze":
            return f"freeze {path} {chance.choice('110')}"
        case "cpus":
            return f"cpus {path} {one_of(chance, CPUS)}"
        case "show":
            return f"show {path} {chance.choice(FILES)}"
        case "online":
            return f"online {one_of(chance, CPUS) or '0-2'}"
    return f"{word} {path} {one_of(chance, LIMITS)}"


def subtree(chance, path):
    """A write to `cgroup.subtree_control`, often where controllers are passed on."""
    path = chance.choice(("/", "/a", "/a", "/a/b", "/a/b", "/a/b", path, path, path))
    signs = chance.choice(("+", "+", "-", "+-", "+-"))
    words = [chance.choice(signs) + one_of(chance, ENABLED) for _ in range(chance.choice((0, 1, 1, 2, 2, 3)))]
    return f"subtree {path} {chance.choice((' ', chr(9))).join(words)}"


def one_of(chance, words):
    """One of some words, by how often each is to be taken."""
    return chance.choices([*words], [*words.values()])[0]
