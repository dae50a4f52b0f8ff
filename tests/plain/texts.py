"""World texts and the lines of schedules. Nothing is looked for that is wrong in a world."""
import re
from math import inf

from .tree import CONTROLLERS, FILES, ROOT, Group, Tree, cpu_list, in_order, limit_word

WORD = r'(?:"(?:[^"\\]|\\["\\n])*"|[^ \t"\\]+)'
LONGEST_LINE = 65_536
GREATEST_CPU = 1_023
GREATEST_PID = 4_194_303
GREATEST_LIMIT = 2_147_483_647


class Malformed(Exception):
    """A text is in no grammar."""


def lines(text):
    """The words of each line of a text that says something, with the line's number; no words where it is in no grammar."""
    for number, line in enumerate(text.removesuffix(b"\n").split(b"\n"), 1):
        try:
            words = words_of(line)
        except (Malformed, UnicodeDecodeError):
            yield number, None
        else:
            if words:
                yield number, words


def words_of(line):
    """The words of a line, those that are quoted with their marks."""
    if len(line) > LONGEST_LINE:
        raise Malformed
    line = line.removesuffix(b"\r").decode().strip(" \t")
    if line.startswith("#"):
        return []
    if line and not re.fullmatch(rf"{WORD}(?:[ \t]+{WORD})*", line):
        raise Malformed
    return re.findall(WORD, line)


def read_path(word):
    text = word
    if word.startswith('"'):
        text = re.sub(r"\\(.)", lambda found: found[1].replace("n", "\n"), word[1:-1])
    if text == "/":
        return ROOT
    front, *names = text.split("/")
    if front or not 1 <= len(names) <= 64 or not all(map(is_name, names)):
        raise Malformed
    return tuple(names)


def is_name(name):
    return 1 <= len(name.encode()) <= 255 and not re.search("[\n\0]", name) and name not in (".", "..", *FILES)


def path_word(path):
    text = "/" + "/".join(path)
    if re.fullmatch(r'[!#-\[\]-~]+', text):
        return text
    return '"' + re.sub(r'(["\\])', r"\\\1", text) + '"'


def read_label(word):
    """The name of a session or of a savepoint."""
    if not re.fullmatch("[A-Za-z0-9_-]{1,16}", word):
        raise Malformed
    return word


def read_number(word, greatest):
    if not re.fullmatch("[0-9]+", word):
        raise Malformed
    digits = word.lstrip("0")
    if len(digits) > 10 or int(digits or 0) > greatest:
        raise Malformed
    return int(digits or 0)


def read_pid(word):
    pid = read_number(word, GREATEST_PID)
    if pid == 0:
        raise Malformed
    return pid


def read_flag(word):
    if word not in ("0", "1"):
        raise Malformed
    return word == "1"


def read_limit(word):
    number = GREATEST_LIMIT if word == "max" else read_number(word, GREATEST_LIMIT)
    return inf if number == GREATEST_LIMIT else number


def read_cpus(word):
    cpus = set()
    for element in word.split(","):
        first, dash, last = element.partition("-")
        start = read_number(first, GREATEST_CPU)
        end = read_number(last, GREATEST_CPU) if dash else start
        if start > end:
            raise Malformed
        cpus.update(range(start, end + 1))
    return frozenset(cpus)


def read_operations(words):
    """The controllers to be enabled and those to be disabled; the last word for each counts."""
    signs = {}
    for word in words:
        if word[0] not in "+-" or word[1:] not in CONTROLLERS:
            raise Malformed
        signs[word[1:]] = word[0]
    return tuple(frozenset(it for it in signs if signs[it] == sign) for sign in "+-")


def read_request(words):
    """A request, as a tuple of its word and what follows it."""
    match words:
        case ["begin" | "undo" | "commit" | "abort" as word]:
            return (word,)
        case ["save" | "back" as word, name]:
            return word, read_label(name)
        case ["create" | "remove" as word, path]:
            return word, read_path(path)
        case ["migrate", pid, path]:
            return "migrate", read_pid(pid), read_path(path)
        case ["subtree", path, *operations]:
            return "subtree", read_path(path), *read_operations(operations)
        case ["freeze", path, value]:
            return "freeze", read_path(path), read_flag(value)
        case ["cpus", path]:
            return "cpus", read_path(path), frozenset()
        case ["cpus", path, cpus]:
            return "cpus", read_path(path), read_cpus(cpus)
        case ["show", path, file] if file in FILES:
            return "show", read_path(path), file
        case ["online", cpus]:
            return "online", read_cpus(cpus)
        case ["maxdescendants" | "maxdepth" as word, path, limit]:
            return word, read_path(path), read_limit(limit)
    raise Malformed


def read_world(text):
    (_, controllers, online, *rows, _) = [words for _, words in lines(text)]
    tree = Tree(frozenset(controllers[1:]), read_cpus(online[1]), {}, {})
    for row in rows:
        match row:
            case ["group", path, control, freeze, cpus, *limits]:
                names = frozenset() if control == "-" else frozenset(control.split(","))
                wish = frozenset() if cpus == "-" else read_cpus(cpus)
                tree.groups[read_path(path)] = Group(names, read_flag(freeze), wish, *map(read_limit, limits))
            case ["proc", pid, path]:
                tree.places[read_pid(pid)] = read_path(path)
    return tree


def write_world(tree):
    groups = tree.groups.values()
    cpus = tree.online.union(*(it.cpus for it in groups))
    is_second = max(cpus) > 127 or any(min(it.max_descendants, it.max_depth) < inf for it in groups)
    rows = [["world", "2" if is_second else "1"], ["controllers", *in_order(tree.controllers)], ["online", cpu_list(tree.online)]]
    for path in sorted(tree.groups):
        group = tree.groups[path]
        control, wish = ",".join(in_order(group.control)), cpu_list(group.cpus)
        limits = [limit_word(group.max_descendants), limit_word(group.max_depth)]
        rows.append(["group", path_word(path), control or "-", f"{group.freeze:d}", wish or "-", *limits * is_second])
    rows += [["proc", str(pid), path_word(path)] for pid, path in sorted(tree.places.items())]
    return "".join(" ".join(row) + "\n" for row in [*rows, ["end"]])
