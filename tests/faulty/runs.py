"""Runs of the built program with the library in front, many beside each other, and what is told of them."""
import collections
import concurrent.futures
import os
import tempfile

from . import front

program = front.loaded("program")
PROCESSES = 4

# What has more words is a run of very many scripts, and what has longer texts is about how many there may be of something.
MOST_WORDS = 20
MOST_BYTES = 20_000

# The kind of what can end in several ways: which script comes first may be otherwise in another run.
FOUR = "run by four workers"

# The page of this process.
page = None


def chosen_cases():
    """Cases of tests/program, each with its kind: the folders of tests/replays, a replay told as JSON, the shows, the trees, the
    plans that are found, the imports that leave nothing out, the differences that are told, the checks of tests/checks.toml
    that are done, and the runs of scripts that leave a history, each of these by one worker and by four, or by one alone
    where files are watched."""
    for case in program.cases():
        words = [*program.words_of(case)]
        if len(words) > MOST_WORDS or is_long(case) or {"-q", "--quiet"} & {*words}:
            continue
        if words[:1] == ["check"] and case.get("status") != 3 and not case["name"].startswith("check of "):
            yield "check", case
            continue
        if words[:1] == ["diff"] and case.get("status", 0) <= 1:
            yield "diff", case
            continue
        if case.get("status"):
            continue
        if os.path.isdir(f"{program.HERE}/replays/{case['name']}"):
            yield "replay", case
        elif words[:2] == ["replay", "--json"]:
            yield "replay as JSON", case
        elif words[:1] in (["show"], ["tree"], ["plan"]) or words[:1] == ["import"] and not {"stderr", "streams"} & {*case}:
            yield words[0], case
        elif words[:3] == ["run", "--workers", "1"] and "h" in case.get("leaves", {}):
            if "--watch" in words:
                yield "run with watches", case
                continue
            yield "run by one worker", case
            yield FOUR, {**case, "words": ["run", "--workers", "4", *words[3:]]}


def is_long(case):
    return any(len(program.in_bytes(text)) > MOST_BYTES for text in case.get("files", {}).values())


def run(case, binary, **done):
    """How the case ends while the library does this: its status and streams, and what is wrong with its files. Those stay as they
    were; a history is there where it ended with status 0, and its replay gives the answers and the tree of the run."""
    with tempfile.TemporaryDirectory() as room:
        program.lay_out(case, room)
        page.begin(**done)
        got = program.run(case, binary, room)
        counts = page.counts()
        page.begin()
        left = case.get("leaves", {}) if got[0] == 0 else {}
        kept = {name: text for name, text in case.get("files", {}).items() if name not in left}
        wrong = [*program.wrong_files({**case, "files": kept, "leaves": {}, "leaves_some": [*left]}, room)]
        if got[0] == 0:
            wrong += program.wrong_replay(case, got[1], binary, room)
        return got, wrong, counts


def is_front(kind, out, whole):
    """Whether this is a front of that output; by four workers, of that of a run which began alike, whatever became of its scripts."""
    if whole.startswith(out):
        return True
    ends, wanted = numbers(program.parted(out)[0]), numbers(program.parted(whole)[0])
    return kind == FOUR and ends == wanted[: len(ends)]


def numbers(ends):
    """What the lines of scripts begin with."""
    return [it.split(" ")[:2] for it in ends]


def _begin(folder, library):
    global page
    page = front.page(folder)
    os.environ["LD_PRELOAD"] = library


class Tally:
    """What passed and failed, and how often what happened."""

    def __init__(self, name):
        self.name, self.passed, self.failed = name, 0, 0
        self.happened = collections.defaultdict(collections.Counter)

    def tell(self, kind, of, happened, found):
        """Of one case: how often what happened, and what is wrong."""
        self.happened[kind] += happened
        for line in found[:5]:
            print(f"{self.name} {kind} {of}: {line}")
        self.failed, self.passed = self.failed + bool(found), self.passed + (not found)

    def end(self):
        for kind, happened in self.happened.items():
            print(f"{self.name} {kind}: " + ", ".join(f"{what} {count:,}" for what, count in sorted(happened.items())))
        print(f"{self.name}: {self.passed} passed, {self.failed} failed")
        return 1 if self.failed or not self.passed else 0


def check_all(name, checks):
    """Makes these checks, each a function and what it is given, many beside each other. Each returns what a Tally is told."""
    tally = Tally(name)
    with tempfile.TemporaryDirectory() as folder:
        library = front.build(folder)
        with concurrent.futures.ProcessPoolExecutor(PROCESSES, initializer=_begin, initargs=(folder, library)) as pool:
            for it in [pool.submit(*check) for check in checks]:
                tally.tell(*it.result())
    return tally.end()
