"""Replays as JSON, held to the schedule and to the plain answers."""
from .plain import world_text
from .running import asked
from .schema import Wrong, holds, objects_of

LONGEST_LINE = 65_536

# The options that a replay as JSON has, too, and those beside which it can't stand.
APART = {"--echo", "--explain", "--json", "--strict"}


def is_told(case):
    return case.command == "replay" and len(words_of(case)) == 2


def words_of(case):
    return [it for it in case.words if it not in APART]


def schedule_of(case):
    """The lines of the schedule, or None where it stands behind the world."""
    world, schedule = words_of(case)
    if world == schedule == "-":
        return None
    lines = (case.stdin if schedule == "-" else case.files[schedule]).split(b"\n")
    return lines if lines[-1] else lines[:-1]


def is_silent(line):
    """Whether a line of a schedule says nothing."""
    try:
        text = line.removesuffix(b"\r").decode()
    except UnicodeDecodeError:
        return False
    text = text.lstrip(" \t")
    return len(line) <= LONGEST_LINE and (not text or text.startswith("#"))


def check_lines(answers, lines):
    """Each line that says something is told of, in order, with its session."""
    numbers = [it["line"] for it in answers if it["line"] is not None]
    holds(all(it["line"] is None for it in answers[len(numbers) :]), "an answer behind the aborts at the end")
    holds(numbers == sorted({*numbers}), f"line numbers {numbers}")
    if lines is None:
        return
    holds(numbers == [at for at, line in enumerate(lines, 1) if not is_silent(line)], f"line numbers {numbers}")
    for it in answers[: len(numbers)]:
        words = lines[it["line"] - 1].split()
        holds(it["session"] is None or words[0].decode() == it["session"], f"session of line {it['line']}")
        holds((it["session"] is None) == (it["request"] is None), f"session and request of line {it['line']}")
        holds(it["request"] is None or it["request"].split()[0] == words[1].decode(), f"request of line {it['line']}")


def check_transactions(answers):
    """Each answer is of the transaction that its session has open, and at the end these are aborted by their numbers."""
    running = {}
    for it in answers:
        word, *others = it["answer"].split(" ")
        if word == "begun":
            holds(it["session"] not in running, f"begun twice: {it}")
            running[it["session"]] = int(others[0])
        holds(it["transaction"] == running.get(it["session"]), f"the transaction of {it}")
        if it["line"] is None:
            holds(it["request"] is None and it["transaction"] == min(running.values()), f"not the first to be aborted: {it}")
        if word in ("committed", "aborted"):
            holds(word == "committed" or int(others[0]) == it["transaction"], f"the transaction of {it}")
            del running[it["session"]]
    holds(not running, f"not aborted: {running}")


def refusal_of(words):
    number, word, *others = words
    return {"number": int(number), "word": word, "controller": others[0] if word in ("unavailable", "inuse") else None}


def check_refusals(answers):
    for it in answers:
        word, *others = it["answer"].split(" ")
        refused = refusal_of(others) if word == "refused" else None
        holds(it["refused"] == refused, f"the refusal of {it}")
        holds(it["holder"] == (int(others[2]) if refused and refused["word"] == "busy" else None), f"the holder of {it}")


def check_told(case, plain, out, schema):
    """Holds an output of JSON to the schedule and to the plain output."""
    objects = objects_of(out, schema)
    *answers, last = objects
    holds([*last] == ["world"], "the last object has no world")
    holds(all([*it] == schema["$defs"]["answer"]["required"] for it in answers), "a field is not at its place")
    text = "".join(f"{it['answer']}\n" for it in answers) + world_text(last["world"])
    holds(text.encode() == plain, f"{text!r} in place of {plain!r}")
    check_lines(answers, schedule_of(case))
    check_transactions(answers)
    check_refusals(answers)
    return any(it["refused"] for it in answers)


def wrong_replay(program, case, schema):
    """What is wrong with a replay as JSON, if anything."""
    case = case._replace(words=words_of(case))
    plain, told, strict = asked(program, case), asked(program, case, "--json"), asked(program, case, "--json", "--strict")
    try:
        holds((told.status, told.err) == (plain.status, plain.err), f"{told} in place of {plain}")
        holds(strict.out == told.out, "another text with --strict")
        if plain.status:
            holds(not told.out and strict.status == plain.status, f"{told}, {strict} in place of {plain}")
            return None
        is_refused = check_told(case, plain.out, told.out, schema)
        holds(strict.status == int(is_refused), f"status {strict.status} with --strict")
    except Wrong as fault:
        return f"{case.name}: {fault}"
    return None
