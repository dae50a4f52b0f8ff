"""The machine of cgtx in Python, through ctypes, over the shared library of include/cgtx.h."""
import ctypes

NONE_OPEN = 102


class Handle(ctypes.Structure):
    _fields_ = [("mark", ctypes.c_uint64), ("machine", ctypes.c_void_p)]


class Machine:
    """A machine on the world that a text spells. What a call tells is its text; a refusal of a line is the text of its answer."""

    def __init__(self, library, world, limit=1_048_576):
        self.library, self.handle = ctypes.CDLL(library), Handle(0, None)
        self.library.cgtx_text.restype = self.library.cgtx_text_length.restype = ctypes.c_size_t
        self.told("open", world, ctypes.c_uint32(limit))

    def told(self, call, *given, fine=(0,)):
        """Makes a call, each text with its length, and gives its status and what it tells. What isn't fine is an error."""
        words = [it for text in given for it in ((text, ctypes.c_size_t(len(text))) if isinstance(text, bytes) else (text,))]
        status = getattr(self.library, f"cgtx_{call}")(ctypes.byref(self.handle), *words)
        if status not in fine:
            raise RuntimeError(f"cgtx_{call}: status {status}")
        room = self.library.cgtx_text_length(ctypes.byref(self.handle))
        buffer = ctypes.create_string_buffer(max(room, 1))
        self.library.cgtx_text(ctypes.byref(self.handle), ctypes.c_size_t(0), buffer, ctypes.c_size_t(room))
        return status, buffer.raw[:room]

    def step(self, line):
        return self.told("step", line, fine=[*range(19), *range(20, 26)])[1]

    def world(self):
        return self.told("world")[1]

    def file(self, path, name):
        return self.told("file", path, name)[1]

    def history(self):
        return self.told("history")[1]

    def open_count(self):
        return self.library.cgtx_open_count(ctypes.byref(self.handle))

    def commit_count(self):
        return self.library.cgtx_commit_count(ctypes.byref(self.handle))

    def aborts(self):
        """Aborts all that is open, the least number first, and gives each answer."""
        while (told := self.told("abort_oldest", fine=(0, NONE_OPEN)))[0] != NONE_OPEN:
            yield told[1]

    def close(self):
        self.library.cgtx_close(ctypes.byref(self.handle))
