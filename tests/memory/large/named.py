"""The export of npm_calls for C: calls by their names."""
import ctypes
import json

NAME = "npm_c::npm_call"
ROOM = 10_000_000  # More bytes than an answer has.


class Named:
    """The function of the library, and whether it was called."""

    def __init__(self, path):
        self.library, self.called = ctypes.CDLL(path), set()
        self.room, self.length = ctypes.create_string_buffer(ROOM), ctypes.c_size_t()

    def call(self, name, members):
        """The answer, or what is wrong with the call."""
        self.called.add(NAME)
        texts = [it for text in (name.encode(), json.dumps(members).encode()) for it in (text, ctypes.c_size_t(len(text)))]
        self.library.npm_call(*texts, self.room, ctypes.c_size_t(ROOM), ctypes.byref(self.length))
        return json.loads(ctypes.string_at(self.room, self.length.value))
