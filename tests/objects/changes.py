"""Texts of JSON that are wrong: each has to be found."""
import json

from . import commands, replays
from .running import Case, asked
from .schema import Wrong

WORLD = """world 2
controllers cpuset cpu
online 0-3,130
group / cpuset,cpu 0 - max 5
group /a cpu 1 0-1 max max
group "/d \\"e" - 0 - 3 max
proc 10 /
proc 11 "/d \\"e"
end
"""
SCHEDULE = """# two sessions
a begin
b begin
a create /x
b create /x
c undo
a show "/d \\"e" cgroup.procs
nonsense
a commit
"""
BAD_WORLD = """world 1
controllers cpu
online 0
group / cpux 0 -
group /a - 2 -
end
"""
OUTLINED = """world 2
controllers cpuset cpu
online 0-3
group / cpuset,cpu 0 - max 5
group /a cpu 1 0-1 max max
group /a/b - 0 - max max
group /c - 0 - 3 max
proc 11 /c
end
"""
SCRIPTS = {"s": "create /y\n", "t": "remove /a\n", "u": "remove /none\n"}


def texts_of(files):
    return {name: text.encode() for name, text in files.items()}


def with_field(at, name, value):
    def change(objects):
        objects[at][name] = value

    return change


def in_world(*way, value):
    def change(objects):
        it = objects[-1]["world"]
        for part in way[:-1]:
            it = it[part]
        it[way[-1]] = value

    return change


def swapped(objects):
    objects[-2:] = reversed(objects[-2:])


# Of the lines of SCHEDULE, by their places in the output: two begins, a create, one that is busy, an undo, a file, nonsense, a
# commit, and an abort at the end.
CHANGES = {
    "a line number one off": with_field(0, "line", 3),
    "the line of an abort at the end": with_field(8, "line", 10),
    "a session of another": with_field(2, "session", "b"),
    "a session of nonsense": with_field(6, "session", "a"),
    "a transaction of another": with_field(2, "transaction", 2),
    "no transaction of a commit": with_field(7, "transaction", None),
    "a request of another": with_field(2, "request", "remove /x"),
    "another answer": with_field(2, "answer", "saved"),
    "a refusal with another number": with_field(3, "refused", {"number": 6, "word": "busy", "controller": None}),
    "a refusal with a controller": with_field(3, "refused", {"number": 5, "word": "busy", "controller": "cpu"}),
    "no refusal": with_field(4, "refused", None),
    "a refusal of what was done": with_field(2, "refused", {"number": 6, "word": "nogroup", "controller": None}),
    "no holder": with_field(3, "holder", None),
    "a holder of a file": with_field(5, "holder", 1),
    "a number as a text": with_field(0, "line", "2"),
    "a field more": with_field(0, "time", 1),
    "a field less": lambda objects: objects[0].pop("holder"),
    "an answer less": lambda objects: objects.pop(2),
    "an answer twice": lambda objects: objects.insert(2, objects[2]),
    "the world before the abort": swapped,
    "no world": lambda objects: objects.pop(),
    "a group that is not frozen": in_world("groups", 1, "freeze", value=False),
    "a limit less": in_world("groups", 0, "max_depth", value=None),
    "a limit as a text": in_world("groups", 0, "max_depth", value="5"),
    "CPUs of another": in_world("groups", 1, "cpus", value="0-2"),
    "a controller more": in_world("groups", 1, "control", value=["cpuset", "cpu"]),
    "a controller of no kernel": in_world("controllers", value=["cpuset", "gpu"]),
    "a process elsewhere": in_world("processes", 0, "path", value="/a"),
    "a path between quotation marks": in_world("groups", 2, "path", value='"/d e"'),
    "no CPU online": in_world("online", value=None),
}

BYTES = {
    "a space behind a colon": lambda text: text.replace(b'":', b'": ', 1),
    "a field twice": lambda text: text.replace(b'{"line":', b'{"holder":null,"line":', 1),
    "fields in another order": lambda text: text.replace(b'"refused":null,"holder":null', b'"holder":null,"refused":null', 1),
    "a letter as its number": lambda text: text.replace(b"begin", b"\\u0062egin", 1),
    "a bare tab": lambda text: text.replace(b'"begin"', b'"be\tin"', 1),
    "no newline at the end": lambda text: text[:-1],
    "an empty line": lambda text: text + b"\n",
    "no line": lambda text: b"",
}


def changed_texts(out, changes):
    """The texts that some changes make of an output."""
    for name, change in changes.items():
        objects = [json.loads(it) for it in out.splitlines()]
        change(objects)
        yield name, b"".join(json.dumps(it, ensure_ascii=False, separators=(",", ":")).encode() + b"\n" for it in objects)


# Of each other command a case, and what is changed in what it writes.
OTHERS = (
    (
        Case("a file", "show", ["world", "/a", "cgroup.freeze"], texts_of({"world": WORLD}), b""),
        {
            "a file of another group": with_field(0, "path", "/"),
            "another file": with_field(0, "file", "cgroup.procs"),
            "another text": with_field(0, "text", "0\n"),
            "a text without its newline": with_field(0, "text", "1"),
        },
    ),
    (
        Case("an outline", "tree", ["--depth", "1", "world"], texts_of({"world": OUTLINED}), b""),
        {
            "no group": lambda objects: objects.pop(),
            "a controller more of a group": with_field(2, "controllers", ["cpuset", "cpu", "io"]),
            "no effective CPUs": with_field(1, "effective", None),
            "a descendant more": with_field(0, "descendants", 4),
            "a descendant more of a group": with_field(1, "descendants", 2),
            "a freeze value of another": with_field(1, "freeze", False),
            "a group that is frozen": with_field(2, "frozen", True),
            "a group that is not populated": with_field(2, "populated", False),
            "a process more": with_field(1, "pids", [12]),
            "no group left out": with_field(1, "below", 0),
        },
    ),
    (
        Case("a plan", "plan", ["world", "v"], texts_of({"world": WORLD, "v": WORLD.replace("proc 10 /\n", "proc 10 /a\n").replace("/a cpu 1", "/a - 0")}), b""),
        {
            "a line number one off": with_field(0, "line", 2),
            "another request": with_field(0, "request", "freeze /a 1"),
            "a request less": lambda objects: objects.pop(),
        },
    ),
    (
        Case("faults", "check", ["bad"], texts_of({"bad": BAD_WORLD}), b""),
        {
            "another line": with_field(0, "line", 5),
            "another column": with_field(0, "column", 1),
            "another word": with_field(0, "word", "cpu"),
            "no word": with_field(0, "word", None),
            "what is wrong with another": with_field(0, "wrong", "is no path"),
            "what may stand elsewhere": with_field(0, "wanted", "a number"),
            "a fault less": lambda objects: objects.pop(0),
            "another count": with_field(2, "faults", 3),
            "another kind": with_field(2, "kind", "script"),
            "another file": with_field(2, "file", "world"),
        },
    ),
    (
        Case("ends", "run", ["--workers", "1", "world", "s", "t", "u"], texts_of({"world": WORLD, **SCRIPTS}), b""),
        {
            "another script": with_field(1, "script", 1),
            "another end": with_field(0, "end", "aborted"),
            "no commit": with_field(0, "commit", None),
            "a line of what was committed": with_field(0, "line", 1),
            "another line": with_field(2, "line", 2),
            "no refusal": with_field(2, "refused", None),
            "a holder of what failed": with_field(2, "holder", 1),
            "a try more": with_field(0, "tries", 2),
            "the world before an end": swapped,
            "no world": lambda objects: objects.pop(),
        },
    ),
)


def unfound_of(check, texts):
    """The changes that aren't found, and how many are."""
    missed, count = [], 0
    for name, text in texts:
        try:
            check(text)
        except Wrong:
            count += 1
        else:
            missed.append(f"not found: {name}")
    return missed, count


def unfound(program, schema):
    """The changes that aren't found, and how many are."""
    replay = Case("changed", "replay", ["world", "schedule"], texts_of({"world": WORLD, "schedule": SCHEDULE}), b"")
    plain, told = asked(program, replay), asked(program, replay, "--json")
    texts = [*changed_texts(told.out, CHANGES), *((name, change(told.out)) for name, change in BYTES.items())]
    missed, count = unfound_of(lambda it: replays.check_told(replay, plain.out, it, schema), texts)
    for case, changes in OTHERS:
        plain, told = asked(program, case), asked(program, case, "--json")
        check = lambda it: commands.check_told(program, case, plain.out, it, schema)
        more, number = unfound_of(check, changed_texts(told.out, changes))
        missed += [f"{case.name}: {it}" for it in more]
        count += number
    return missed, count
