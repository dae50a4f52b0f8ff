"""Wrong bodies, tried together: what each edit changes, which of them go into one check, and which of them it refuses.

Contracts are modular: what is proved of a function rests on the contracts of those that it calls, and never on their bodies.
So one check of a crate in which many functions are wrong tells of each one by itself; it is asked for these alone, since nothing
is to be learned of their callers. An edit counts as refused where the check names a goal of the very function that it changes;
that a function calls another one that isn't proved says nothing. Where a callee isn't proved, not each goal of its caller is
tried: what a check doesn't name is tried once more without those that it named, and what no check names is tried alone, as the
kit does."""
import os
import re
import shutil
import tempfile
from dataclasses import dataclass

from .kit import KEPT, rt

HEAD = re.compile(r"( *)(?:pub(?:\([^)]*\))? )?(?:const |unsafe |extern \"C\" )*fn (\w+)")
# An error of a proof file that names what an edit took away, or that rests on another one, says little of a contract.
NAMES = r"has no field|is not in scope|has no `|was not admitted|which (was|were) rejected"
VERDICT = r"\n(logic=not-proved|only=\d+ proved=\d+).*\n?\Z"
CALLS = r"(?:no proof: |not proved; )(?:it [^;\n]*, which (?:is|are) not proved(?:; )?)+"


@dataclass(frozen=True)
class Function:
    """A function of a source file: its name, the type and trait that it belongs to, and where its text lies."""

    module: tuple
    type: str
    trait: str
    name: str
    start: int
    end: int
    ensures: bool

    def ending(self):
        """The name by which a check may be asked for it: the end of the one that it prints, or that one without the crate's."""
        owner = f"{self.type}{self.trait}"
        return "::".join([*([owner] if owner else self.module), self.name])

    def is_named(self, printed):
        """Whether the check prints this name for the function, or for a closure in it. A method stands under the module of its type,
        which may be another than that of its file."""
        parts = [it for it in printed.split("::")[1:] if it != "fn"]
        owner = f"{self.type}{self.trait}"
        if owner:
            return any(pair == (owner, self.name) for pair in zip(parts, parts[1:]))
        front = len(self.module)
        return tuple(parts[:front]) == self.module and parts[front : front + 1] == [self.name]

    def has_contract(self):
        """Whether its callers know it by a contract: its own, or that of the trait whose method it is."""
        return self.ensures or bool(self.trait)


@dataclass(frozen=True)
class Edit:
    """An edit: its file, what it makes of the crate's files, and the function that it changes where that is all it changes."""

    file: str
    texts: dict
    path: str = ""
    function: Function = None
    body: str = ""

    @property
    def name(self):
        return os.path.basename(self.file)


@dataclass(frozen=True)
class Round:
    """What a check of many edits at once says: whether it counts, for each edit what it says against the very function that this
    one changes, or nothing; and the edits for which it got to no proof."""

    counts: bool
    refused: dict
    unread: list


def without_generics(text):
    """The text without what stands between angle brackets."""
    kept, depth = "", 0
    for at, it in enumerate(text):
        depth += it == "<"
        kept += it if not depth else ""
        depth -= it == ">" and text[at - 1] not in "-="
    return kept


def owner_of(head):
    """The type and the trait of an impl's first lines, as a check prints them: `From<AllocFailed<T>>` as `FromAllocFailed`."""
    words = without_generics(head.removeprefix("unsafe ").removeprefix("impl")).partition(" where ")[0].split("{")[0].strip()
    trait, found, of = words.rpartition(" for ")
    of, trait = re.sub(r"&('\w+ )?(mut )?", "Ref", of.strip()), trait.strip()
    given = re.search(rf"\b{re.escape(trait)}<(.*?)> for ", head) if found else None
    types = re.findall(r"\w+", without_generics(given[1])) if given else []
    return of.rpartition("::")[2], "".join([trait.rpartition("::")[2], *(it[0].upper() + it[1:] for it in types)]) if found else ""


def functions_of(path, text):
    """The functions of a source file in rt fmt's layout, where a body ends at the indent of its head."""
    parts = path.removeprefix("src/").removesuffix(".rt").split("/")
    module = tuple(it for it in parts if it not in ("lib", "main", "mod"))
    found, owner, at, lines = [], ("", ""), 0, text.split("\n")
    starts = []
    for line in lines:
        starts.append(at)
        at += len(line) + 1
    for number, line in enumerate(lines):
        if re.match(r"(unsafe )?impl\b", line):
            head = "\n".join(lines[number : number + 8])
            owner = owner_of(re.sub(r"\s+", " ", head.partition("{\n")[0] + " {"))
        elif line == "}":
            owner = ("", "")
        head = HEAD.match(line)
        if not head or len(head[1]) != (4 if owner[0] else 0):
            continue
        last = number
        if not line.endswith("}"):
            ends = (f"{head[1]}}}", f"{head[1]}{{}}")
            last = next((it for it in range(number + 1, len(lines)) if lines[it] in ends), number)
        whole = "\n".join(lines[number : last + 1])
        ensures = bool(re.search(rf"^{head[1]}    ensures", whole, re.M)) or " ensures " in line
        found.append(Function(module, *owner, head[2], starts[number], starts[last] + len(lines[last]), ensures))
    return found


def changed(old, new):
    """Where the old text stops being the new one, and where it is the new one again."""
    front = len(os.path.commonprefix([old, new]))
    back = len(os.path.commonprefix([old[front:][::-1], new[front:][::-1]]))
    return front, len(old) - back


def read_edit(crate, file):
    """The edit in that file, or why it can't be applied."""
    texts, why = rt.read_edit(file, crate.folder)
    if why:
        return None, why
    if len(texts) != 1:
        return Edit(file, texts), None
    (path, text), = texts.items()
    with open(f"{crate.folder}/{path}", encoding="utf-8") as it:
        old = it.read()
    start, end = changed(old, text)
    for it in functions_of(path, old) if path.startswith("src/") else []:
        if it.start <= start and end <= it.end and it.has_contract():
            return Edit(file, texts, path, it, text[it.start : it.end + len(text) - len(old)]), None
    return Edit(file, texts), None


def one_a_function(edits):
    """The first edit of each function, and those that are left for later."""
    first = {}
    for it in edits:
        first.setdefault((it.path, it.function), it)
    return [*first.values()], [it for it in edits if it not in first.values()]


def texts_of(crate, together):
    """The crate's files with the bodies of these edits."""
    texts = {}
    for path in {it.path for it in together}:
        with open(f"{crate.folder}/{path}", encoding="utf-8") as it:
            texts[path] = it.read()
    for edit in sorted(together, key=lambda it: -it.function.start):
        text, it = texts[edit.path], edit.function
        texts[edit.path] = text[: it.start] + edit.body + text[it.end :]
    return texts


def check(crate, texts, jobs, asked=()):
    """Checks the crate with these texts over a copy of the work that its own proof kept: what is asked for alone, if anything is."""
    with tempfile.TemporaryDirectory(prefix="rt-kept-") as room:
        kept = f"{room}/kept"
        shutil.copytree(f"{crate.folder}/{KEPT}", kept)
        return rt.checked(crate, texts, ["--jobs", str(jobs), *(word for it in asked for word in ("--only", it))], kept)


def check_functions(crate, together, texts, jobs):
    """Checks the functions that these edits change, or the whole crate where one of their names fits none or several."""
    ran = check(crate, texts, jobs, [it.function.ending() for it in together])
    return ran if ran.returncode != 2 else check(crate, texts, jobs)


def goals_of(said):
    """For each function that isn't proved, the first thing that the check says of a goal of its own, or nothing."""
    goals, errors = {}, {}
    # (the lines of one error that go on from the first are indented)
    for path, why in re.findall(r"^\./proofs/(\S+)/\w+\.antt:\d+:\d+: error: (.*(?:\n +.*)*)", said, re.M):
        if not re.search(NAMES, why):
            errors.setdefault(path.replace("/", "::"), why.partition("\n")[0])
    for name, why in re.findall(r"^fn (\S+): ((?:not proved|no proof).*)$", said, re.M):
        own = errors.get(name.partition("::")[2], "")
        goals[name] = why if why.startswith("no proof") and "did not prove" in why else own
    return goals


def is_explained(said, goals, together):
    """Whether the check got to a verdict, and each function that it didn't prove is one of these or calls such a one."""
    calls = {name for name in re.findall(rf"^fn (\S+): {CALLS}$", said, re.M)}
    strange = [it for it in goals if it not in calls and not any(edit.function.is_named(it) for edit in together)]
    return not strange and bool(re.search(VERDICT, said))


def lines_of(edit, texts):
    """The lines of the function that the edit changes, in these texts."""
    text, it = texts[edit.path], edit.function
    where = [at for at in functions_of(edit.path, text) if (at.module, at.type, at.trait, at.name) == (it.module, it.type, it.trait, it.name)]
    lines = [range(text.count("\n", 0, at.start) + 1, text.count("\n", 0, at.end) + 2) for at in where]
    return lines[0] if len(lines) == 1 else range(0)


def notes_of(said, texts, edit):
    """What the check says of goals in the very lines of the function that the edit changes."""
    for line, why in re.findall(rf"^note: {re.escape(edit.path)}:(\d+):\d+: (it is not proved that .*)", said, re.M):
        if int(line) in lines_of(edit, texts):
            yield why


def unread_in(said, texts, together):
    """The edits in whose functions the compiler finds an error before anything is proved. It goes on to no proof then."""
    if re.search(VERDICT, said):
        return []
    found = [(path, int(line)) for path, line in re.findall(r"^(?:\./)?(src/\S+?):(\d+):\d+: error", said, re.M)]
    return [it for it in together if any(path == it.path and line in lines_of(it, texts) for path, line in found)]


def try_round(crate, together, jobs):
    """Checks the crate with these edits, of one function each."""
    texts = texts_of(crate, together)
    ran = check_functions(crate, together, texts, jobs)
    goals = goals_of(ran.stdout)
    if ran.returncode != 1 or not is_explained(ran.stdout, goals, together):
        return Round(False, {it.name: "" for it in together}, unread_in(ran.stdout, texts, together))
    refused = {}
    for edit in together:
        own = [why for name, why in goals.items() if why and edit.function.is_named(name)]
        refused[edit.name] = next(iter([*own, *notes_of(ran.stdout, texts, edit)]), "")
    return Round(True, refused, [])


def alone(crate, edit):
    """Whether the kit refuses this edit, tried by itself, and what it says."""
    with tempfile.TemporaryDirectory(prefix="rt-kept-") as room:
        kept = f"{room}/kept"
        shutil.copytree(f"{crate.folder}/{KEPT}", kept)
        came_to, said = rt.must_fail(crate, edit.file, ["--jobs", "1"], kept)
        # (some rt tell only whether it was refused)
        return came_to if isinstance(came_to, bool) else came_to in (rt.REFUSED, rt.AT_LIMIT), said


def try_together(crate, edits, harmless, jobs):
    """Tries edits of one function each, as many at once as there are functions, the harmless ones beside them. Returns for each
    whether all is well and a line, and the edits that no check named."""
    told, left, said, harmless = [], [], {}, [*harmless]
    while edits:
        first, edits = one_a_function(edits)
        beside = [it for it in harmless if (it.path, it.function) not in {(edit.path, edit.function) for edit in first}]
        tried = try_round(crate, [*first, *beside], jobs)
        if tried.unread:
            left += [it for it in first if it in tried.unread]
            harmless = [it for it in harmless if it not in tried.unread]
            told += [(False, f"{crate.name}/{it.name}: BAD EDIT: it doesn't compile") for it in beside if it in tried.unread]
            edits = [*[it for it in first if it not in tried.unread], *edits]
            continue
        for it in beside if tried.counts else []:
            said[it.name] = said.get(it.name) or tried.refused[it.name]
        told += [(True, f"{crate.name}/{it.name}: refused: {tried.refused[it.name][:160]}") for it in first if tried.refused[it.name]]
        unnamed = [it for it in first if not tried.refused[it.name]]
        if len(unnamed) < len(first):
            edits = [*unnamed, *edits]
        else:
            left += unnamed
    return told + [told_of_harmless(crate, it, said.get(it.name)) for it in harmless], left


def told_of_harmless(crate, edit, said):
    """What to tell of an edit that changes nothing, where a check that counts said this against it, nothing, or where none had it."""
    if said is None:
        return False, f"{crate.name}/{edit.name}: NOT TRIED: no check that counts had it"
    if said:
        return False, f"{crate.name}/{edit.name}: REFUSED, and it changes nothing: {said}"
    return True, f"{crate.name}/{edit.name}: NOT REFUSED, as it changes nothing"


def try_edits(crate, jobs, harmless=()):
    """Tries the crate's wrong bodies, and beside them edits that change nothing of meaning, which no check may name. Returns for
    each whether all is well and a line."""
    files, bad = rt.edits_of(crate)
    told = [(False, f"{crate.name}/{os.path.basename(it)}: BAD EDIT: its name or its place") for it in bad]
    edits, beside = [], []
    for file in [*files, *harmless]:
        edit, why = read_edit(crate, file)
        if why or file in harmless and not edit.function:
            told.append((False, f"{crate.name}/{os.path.basename(file)}: BAD EDIT: {why or 'it is not of one function'}"))
        else:
            (beside if file in harmless else edits).append(edit)
    more, left = try_together(crate, [it for it in edits if it.function], beside, jobs)
    told += more
    left += [it for it in edits if not it.function]
    told += [alone(crate, it) for it in left]
    if left and check(crate, {}, jobs).returncode:
        told.append((False, f"{crate.name}: it isn't proved over its kept work, so nothing says why its edits are refused"))
    return told
