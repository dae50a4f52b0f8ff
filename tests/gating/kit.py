"""The kit's own rt, loaded as a module, and the repository's crates as it sees them."""
import functools
import importlib.machinery
import importlib.util
import os
import re
import shutil
import sys
import tempfile
from concurrent.futures import ThreadPoolExecutor

TOP = os.path.dirname(os.path.dirname(os.path.dirname(os.path.realpath(__file__))))


def load():
    file = os.path.realpath(shutil.which("rt") or sys.exit("there is no rt: the kit's command has to be on the PATH"))
    loader = importlib.machinery.SourceFileLoader("rt", file)
    made = importlib.util.module_from_spec(importlib.util.spec_from_loader("rt", loader))
    sys.modules["rt"] = made
    loader.exec_module(made)
    return made


sys.dont_write_bytecode = True
rt = load()
rtlib = rt.rtlib
# A check over kept work says so in one word more. Each crate's kept work is begun, and filled, by the run that trusts it.
rtlib.VERDICT = re.compile(rtlib.VERDICT.pattern.replace(r"statements=trusted\n", r"statements=trusted( incremental=trusted)?\n"), re.M)
KEPT = rtlib.KEPT[1]


class Crate(rt.Crate):
    """A crate whose proof is kept, so that wrong bodies are tried over it. It is summed up once a run, and not once for every
    path by which others stand on it."""

    @functools.cached_property
    def sum(self):
        return super().stamp()

    def stamp(self):
        return self.sum

    def prove_library(self, jobs):
        """Proves the crate over its kept work, if there is any, and makes its library. Returns whether that went well."""
        stamp, folder = f"{self.folder}/out/rlib/stamp", f"{self.folder}/out/rlib"
        shutil.rmtree(folder, ignore_errors=True)
        os.makedirs(folder)
        words = ["build", *self.words(["--jobs", str(jobs)]), *rtlib.KEPT, "-o", self.rlib]
        if self.prove(words):
            return False
        with open(stamp, "w", encoding="utf-8") as it:
            it.write(self.sum)
        return True

    def prove_static(self, jobs):
        """Proves a static library over its kept work, if there is any, and makes its archive. Returns whether that went well."""
        os.makedirs(f"{self.folder}/out", exist_ok=True)
        words = ["--jobs", str(jobs)]
        return not (self.prove(["check", *self.words(words), *rtlib.KEPT]) or self.build_static(words))

    def prove_program(self, jobs, compilers):
        """Proves the program from nothing, and lets each of these compilers take what was proved, side by side. Returns whether that
        went well."""
        os.makedirs(f"{self.folder}/out", exist_ok=True)
        words = self.words(["--jobs", str(jobs)], keeps=False)
        with tempfile.TemporaryDirectory(prefix="rt-proved-") as room:
            if self.prove(["check", *words, "-o", f"{room}/checked"]):
                return False
            # (a compiler takes no words for a proof)
            for flag in ("--logic-built", "--jobs"):
                at = words.index(flag)
                words = [*words[:at], *words[at + 2 :]]
            words += ["--crate-checked", f"{room}/checked", "--toolchain", f"{rt.KIT}/toolchain"]
            with ThreadPoolExecutor() as pool:
                return not any(pool.map(lambda it: self.compile_by(it, words, f"out/{self.name}"), compilers))


def crates(aside=None):
    """The repository's crates, lowest first, once its files lie as the kit wants them. With a folder, what earlier runs left goes
    there."""
    os.chdir(TOP)
    rtlib.stop = rt.stop
    for it in (rtlib.ALLOW_C, rtlib.BACKEND, "RT_SECONDS"):
        os.environ.pop(it, None)
    # (its first call sets a signal's handler, which only the main thread may)
    rtlib.guarded()
    rt.Crate = Crate
    Crate.allowed = rt.handles_of(TOP)
    if aside:
        # (some rt set aside by a function of its own)
        if hasattr(rt, "set_aside"):
            found = rt.crates_of(TOP)
            rt.set_aside(TOP, os.listdir(f"{TOP}/crates"), aside)
        else:
            found = rt.crates_of(TOP, aside)
    else:
        rtlib.Crate = Crate
        found = sorted(rtlib.crates_below(TOP), key=lambda it: len(it.below()))
    rtlib.lock(found)
    return found


def stop_on_files(found):
    """Stops at a file of code or proofs that no check reads."""
    for name in sorted(it for it in os.listdir(TOP) if it != ".git"):
        if os.path.isdir(f"{TOP}/{name}"):
            rtlib.stop_on_unread(f"{TOP}/{name}", found)
        elif name.endswith((".rt", ".antt")):
            rtlib.stop(f"no check reads {name}")


def fault_in_texts(crate):
    """What the kit's gate refuses in a crate's texts without a proof, or nothing."""
    try:
        rtlib.stop_on_links(crate.folder)
        rtlib.stop_on_text(crate, "verdict")
        rt.stop_on_words(crate)
    except SystemExit:
        return "its texts are refused, as is said above"
    code = rtlib.code_of(crate.folder)
    top = f"{crate.folder}/src/{'main' if crate.is_program else 'lib'}.rt"
    if re.search(rt.RENAMES, code):
        return "it renames std, or takes it whole"
    if re.search(rt.IGNORED, code):
        return "it has a test that nothing runs"
    if not re.search(rt.ASKS, rtlib.blanked(crate.folder).get(top, "")):
        return "its root has no line #![tactic(auto)]"
    for handle, words in rt.REACHES.items():
        if handle not in crate.allowed and re.search(words, code):
            return f"it reaches what only the handle {handle} gives"
    return "run rt fmt in its folder" if rtlib.fmt(crate.folder, "--check", crate.out) else None
