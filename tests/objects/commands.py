"""Files, outlines, plans, faults and runs of scripts as JSON, held to the same as plain texts."""
from .plain import check_line, end_line, names_of, outline_line, request_line, world_text
from .running import asked
from .schema import Wrong, holds, objects_of

# What each command writes, by the names of docs/schema.json.
WRITES = {"show": {"shown_file"}, "tree": {"shown_group"}, "plan": {"request"}, "check": {"fault", "count"}, "run": {"end", "result"}}

# With several workers two runs may differ, and what watches see does.
ONE_WORKER = ["--workers", "1"]


def is_told(case):
    return case.command in WRITES and not {"--json", "--shell", "--explain"} & {*case.words} and not any(it.startswith("--watch") for it in case.words)


def with_one_worker(case):
    if case.command != "run" or any(it.startswith("--workers") for it in case.words):
        return case
    return case._replace(words=[*ONE_WORKER, *case.words])


def kind_of(it, schema):
    """Which of the schema's objects it is, by its fields."""
    return next((name for name, rule in schema["$defs"].items() if rule.get("required") == [*it]), None)


def lines_of(case, objects):
    """The plain text, put together again."""
    if case.command == "show":
        return objects[0]["text"]
    if case.command == "run":
        *ends, last = objects
        return "".join(map(end_line, ends)) + world_text(last["world"])
    line = {"tree": outline_line, "plan": request_line, "check": check_line}[case.command]
    return "".join(map(line, objects))


def check_show(program, case, objects):
    """It is the file of these words."""
    holds(len(objects) == 1, "more than a file")
    _, path, name = [it for it in case.words if it not in ("-q", "-v")]
    path = path.strip(" \t")
    if path.startswith('"'):
        path = path[1:-1].replace('\\"', '"').replace("\\\\", "\\")
    holds((objects[0]["path"], objects[0]["file"]) == (path, name.strip(" \t")), f"not the file of the words: {objects[0]}")


def check_run(program, case, objects):
    """Each script's end is there, in order, and then the world; of an end those fields are there that it has."""
    *ends, last = objects
    holds("world" in last and not any("world" in it for it in ends), "the world is not the last")
    holds([it["script"] for it in ends] == [*range(1, len(ends) + 1)], "the scripts' numbers")
    for it in ends:
        has = [name for name in ("commit", "line", "refused", "holder") if it[name] is not None]
        holds(has == {"committed": ["commit"], "failed": ["line", "refused"], "gaveup": ["line", "holder"]}.get(it["end"], []), f"fields of {it}")


def check_plan(program, case, objects):
    holds([it["line"] for it in objects] == [*range(1, len(objects) + 1)], "the lines' numbers")


def check_check(program, case, objects):
    """Behind the faults of a file stands how many it has, of which 20 at most are told."""
    told = 0
    for it in objects:
        if "faults" in it:
            holds(told == min(it["faults"], 20), f"{told} faults before {it}")
            told = 0
        else:
            told += 1
    holds(told == 0, "faults behind the last count")


def check_tree(program, case, objects):
    """What an outline doesn't show is as the groups' files have it, and as their number."""
    world = [it for it in case.words if it == "-" or it in case.files][-1]
    whole = asked(program, case._replace(words=[world]))
    count = whole.out.decode().count("\n")
    depth = int(case.words[case.words.index("--depth") + 1]) if "--depth" in case.words else 64
    paths = [names_of(it["path"]) for it in objects]
    for it in objects:
        names = names_of(it["path"])
        if depth == 64:
            below = sum(1 for other in paths if len(other) > len(names) and other[: len(names)] == names)
            holds(it["descendants"] == below, f"descendants of {it}")
        elif it["path"] == "/":
            holds(it["descendants"] == count - 1, f"descendants of {it}")
        holds(it["below"] == (it["descendants"] if len(names) >= depth else 0), f"left out below {it}")
        check_files(program, case, world, it)


def flag(value):
    return "none" if value is None else str(int(value))


def check_files(program, case, world, group):
    """The group is as its files show it; the root lacks some."""
    said = {
        "cgroup.controllers": " ".join(group["controllers"]),
        "cgroup.subtree_control": " ".join(group["control"]),
        "cgroup.procs": "\n".join(map(str, group["pids"])),
        "cgroup.events": f"populated {flag(group['populated'])}\nfrozen {flag(group['frozen'])}",
        "cgroup.freeze": str(int(group["freeze"])),
        "cpuset.cpus": group["cpus"] or "",
        "cpuset.cpus.effective": group["effective"] or "",
        "cgroup.max.descendants": "max" if group["max_descendants"] is None else str(group["max_descendants"]),
        "cgroup.max.depth": "max" if group["max_depth"] is None else str(group["max_depth"]),
    }
    for name, text in said.items():
        shown = asked(program, case._replace(command="show", words=[world, group["path"], name]))
        if shown.status == 0:
            holds(shown.out.decode().rstrip("\n") == text, f"{name} of {group}: {shown.out}")
        else:
            holds(shown.err == b"refused 15 nofile\n", f"{name} of {group}: {shown}")


CHECKS = {"show": check_show, "tree": check_tree, "plan": check_plan, "check": check_check, "run": check_run}


def check_told(program, case, plain, out, schema):
    """Holds an output of JSON to the plain output of the same words."""
    objects = objects_of(out, schema) if out else []
    kinds = {kind_of(it, schema) for it in objects}
    holds(kinds <= WRITES[case.command], f"objects that are {kinds}")
    CHECKS[case.command](program, case, objects)
    holds(lines_of(case, objects).encode() == plain, f"{lines_of(case, objects)!r} in place of {plain!r}")


def wrong_command(program, case, schema):
    """What is wrong with it as JSON, if anything."""
    case = with_one_worker(case)
    plain, told = asked(program, case), asked(program, case, "--json")
    try:
        if told.err.startswith(b"error: "):
            holds(plain.err.startswith(b"error: ") and told.status == plain.status, f"{told} in place of {plain}")
        else:
            holds((told.status, told.err, told.files) == (plain.status, plain.err, plain.files), f"{told} in place of {plain}")
        if plain.out or told.out:
            check_told(program, case, plain.out, told.out, schema)
    except Wrong as fault:
        return f"{case.name}: {fault}"
    return None
