"""Cases of tests/program that need nothing but files and standard input, and what the built program does with them."""
import importlib.machinery
import importlib.util
import os
import subprocess
import tempfile
from typing import NamedTuple

TESTS = os.path.dirname(os.path.dirname(os.path.realpath(__file__)))
SECONDS = 60

# How many bytes a case may read in all; the few of tests/program that read more show how much is read, and not what is told.
MOST_BYTES = 1_048_576

# What a case may have that is run here.
PLAIN_PARTS = {"name", "words", "files", "stdin", "stdout", "stderr", "status", "history"}


class Case(NamedTuple):
    name: str
    # the command, and its words
    command: str
    words: list
    files: dict
    stdin: bytes


class Ran(NamedTuple):
    status: int
    out: bytes
    err: bytes
    # the files behind the run, by their names
    files: dict


def of_program():
    """The cases of tests/program, and what makes their texts."""
    loader = importlib.machinery.SourceFileLoader("program", f"{TESTS}/program")
    made = importlib.util.module_from_spec(importlib.util.spec_from_loader("program", loader))
    loader.exec_module(made)
    return made


def cases(folders):
    """The cases, and a replay for each folder with a world and a schedule, at any depth."""
    program = of_program()
    for case in program.cases():
        if not {*case} <= PLAIN_PARTS:
            continue
        command, *words = [*program.words_of(case)] or [""]
        files = {name: program.in_bytes(text) for name, text in case.get("files", {}).items()}
        stdin = program.in_bytes(case.get("stdin", b""))
        if not {"--help", "-h"} & {*words} and len(stdin) + sum(map(len, files.values())) <= MOST_BYTES:
            yield Case(case["name"], command, words, files, stdin)
    for folder in folders:
        for at, _, names in sorted(os.walk(folder)):
            if {"world", "schedule"} <= {*names}:
                files = {it: program.read(f"{at}/{it}") for it in ("world", "schedule")}
                yield Case(at, "replay", ["world", "schedule"], files, b"")


def asked(program, case, *options):
    """What the program does that is asked for this, with these options more."""
    with tempfile.TemporaryDirectory() as room:
        for name, text in case.files.items():
            os.makedirs(os.path.dirname(f"{room}/{name}"), exist_ok=True)
            with open(f"{room}/{name}", "wb") as it:
                it.write(text)
        ran = subprocess.run([program, case.command, *options, *case.words], cwd=room, input=case.stdin, capture_output=True, timeout=SECONDS)
        return Ran(ran.returncode, ran.stdout, ran.stderr, files_in(room))


def files_in(room):
    found = {}
    for at, _, names in os.walk(room):
        for name in names:
            if os.path.isfile(f"{at}/{name}"):
                with open(f"{at}/{name}", "rb") as it:
                    found[os.path.relpath(f"{at}/{name}", room)] = it.read()
    return found
