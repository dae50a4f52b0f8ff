"""Plain texts, put together again from what JSON tells."""
import re


def path_word(path):
    if all(33 <= ord(it) <= 126 and it not in '"\\' for it in path):
        return path
    text = path.replace("\\", "\\\\").replace('"', '\\"').replace("\n", "\\n")
    return f'"{text}"'


def limit_word(limit):
    return "max" if limit is None else str(limit)


def is_first_version(world):
    """Whether no CPU number is above 127, and no group has a limit."""
    lists = [world["online"], *(it["cpus"] for it in world["groups"])]
    numbers = [int(it) for text in lists if text for it in re.split("[-,]", text)]
    limits = [it[name] for it in world["groups"] for name in ("max_descendants", "max_depth")]
    return all(it <= 127 for it in numbers) and all(it is None for it in limits)


def world_text(world):
    is_first = is_first_version(world)
    lines = [f"world {1 if is_first else 2}", " ".join(["controllers", *world["controllers"]]), f"online {world['online']}"]
    for it in world["groups"]:
        words = ["group", path_word(it["path"]), ",".join(it["control"]) or "-", str(int(it["freeze"])), it["cpus"] or "-"]
        limits = [] if is_first else [limit_word(it["max_descendants"]), limit_word(it["max_depth"])]
        lines.append(" ".join([*words, *limits]))
    lines += [f"proc {it['pid']} {path_word(it['path'])}" for it in world["processes"]]
    return "".join(f"{it}\n" for it in [*lines, "end"])


# ---- outlines


def names_of(path):
    return [] if path == "/" else path[1:].split("/")


def fact(word, value):
    return f"  {word} {value}"


def outline_line(group):
    """The line of a group in an outline."""
    facts = [fact("controllers", ",".join(group["controllers"]))] if group["path"] == "/" and group["controllers"] else []
    if group["control"]:
        facts.append(fact("control", ",".join(group["control"])))
    if group["cpus"] is not None:
        facts.append(fact("cpus", group["cpus"]))
    if group["effective"] is not None:
        facts.append(fact("effective", group["effective"]))
    if group["max_descendants"] is not None:
        facts.append(fact("descendants", f"{group['descendants']} of {group['max_descendants']}"))
    if group["max_depth"] is not None:
        facts.append(fact("depth", group["max_depth"]))
    if group["frozen"]:
        facts.append("  frozen")
    if group["pids"]:
        facts.append(fact("pids", " ".join(map(str, group["pids"]))))
    elif group["populated"]:
        facts.append("  populated")
    if group["below"]:
        facts.append(fact("below", group["below"]))
    return "  " * len(names_of(group["path"])) + path_word(group["path"]) + "".join(facts) + "\n"


# ---- plans, faults and ends

LONGEST_SHOWN = 60


def request_line(it):
    return f"{it['request']}\n"


def is_shown(word):
    return len(word) <= LONGEST_SHOWN and all(" " <= letter <= "~" for letter in word)


def check_line(it):
    """The line of a fault, or of how many there are."""
    if "faults" in it:
        return f"{it['file']}: a {it['kind']} {faults_words(it['faults'])}\n"
    said = "" if it["word"] is None else f"`{it['word']}` " if is_shown(it["word"]) else "this word "
    return f"{it['file']}:{it['line']}:{it['column']}: {said}{it['wrong']}: {it['wanted']}\n"


def faults_words(count):
    if count < 2:
        return "with 1 fault" if count else "without a fault"
    return f"with {count} faults" + (", of which the first 20 are told" if count > 20 else "")


def refused_words(refused):
    named = f" {refused['controller']}" if refused["controller"] else ""
    return f"refused {refused['number']} {refused['word']}{named}"


def end_line(it):
    """The line of a script's end."""
    refused = it["refused"]
    more = {
        "committed": lambda: f" {it['commit']}",
        "aborted": lambda: "",
        "failed": lambda: f" {it['line']} {refused_words(refused)}",
        "gaveup": lambda: "",
    }
    return f"script {it['script']} {it['end']}{more[it['end']]()} tries {it['tries']}\n"
