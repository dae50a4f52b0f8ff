"""The library in front of the C library (front.c): it refuses growths of memory, and lets reads and writes fail, come short or be
interrupted."""
import ctypes
import importlib.machinery
import importlib.util
import mmap
import os
import subprocess
import tempfile

HERE = os.path.dirname(os.path.realpath(__file__))
COUNTS = ("growths", "reads", "writes")
DONE = ("growth", "growths_from", "read", "reads_from", "write", "writes_from", "read_bytes", "write_bytes", "interrupted")
PAGE = mmap.PAGESIZE


class Page(ctypes.Structure):
    """What the library has counted, and what it does: front.c says what each is."""

    _fields_ = [(name, ctypes.c_ulong) for name in COUNTS + DONE]

    def begin(self, **done):
        """Counts from nothing, and does this alone."""
        ctypes.memset(ctypes.addressof(self), 0, ctypes.sizeof(self))
        for name, value in done.items():
            setattr(self, name, value)

    def counts(self):
        return {name: getattr(self, name) for name in COUNTS}


def loaded(name):
    """One of the programs of tests/, as a module."""
    loader = importlib.machinery.SourceFileLoader(f"tests_{name}", f"{HERE}/../{name}")
    module = importlib.util.module_from_spec(importlib.util.spec_from_loader(loader.name, loader))
    loader.exec_module(module)
    return module


def compile_to(file, *how):
    """Compiles the library to this file, and returns that."""
    words = [os.environ.get("CC", "cc"), "-O2", "-Wall", "-Werror", "-fPIC", *how, "-o", file, f"{HERE}/front.c"]
    subprocess.run(words, check=True)
    return file


def build(folder):
    """Compiles the library, and returns where it lies."""
    return compile_to(f"{folder}/front.so", "-shared")


def build_object(folder):
    """Compiles it to be linked into a program that gets its memory from AddressSanitizer, and returns where it lies."""
    return compile_to(f"{folder}/front.o", "-c", "-DBELOW(name)=___interceptor_##name")


def page(folder):
    """A page of this process, which the library shares in each program that is started from now on."""
    handle, name = tempfile.mkstemp(dir=folder)
    os.truncate(handle, mmap.PAGESIZE)
    shared = mmap.mmap(handle, mmap.PAGESIZE)
    os.close(handle)
    os.environ["FRONT_PAGE"] = name
    return Page.from_buffer(shared)
