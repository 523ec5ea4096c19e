"""The proved functions, as C sees them."""
import ctypes
import sys

from tests.harness.fence import Room

BYTES = [ctypes.c_void_p, ctypes.c_size_t]  # a Rattle `&[u8]` is a pointer and a length
SIZE, U32, U8 = [ctypes.c_size_t], [ctypes.c_uint32], [ctypes.c_uint8]
POINTER = [ctypes.c_void_p]

SIGNATURES = {
    "md5": BYTES + BYTES,
    "md5_cut": BYTES + SIZE + SIZE + BYTES,
    "hmac": BYTES + BYTES + BYTES,
    "hmac_cut": BYTES + BYTES + SIZE + SIZE + BYTES,
    "equal": BYTES + BYTES,
    "compare": BYTES + BYTES + POINTER,
    "equal16": BYTES + BYTES,
    "number": BYTES + SIZE + U32 + POINTER,
    "put": BYTES + SIZE + U32 + U32,
    "copy": BYTES + SIZE + BYTES,
    "fill": BYTES + SIZE + SIZE + U8,
    "authenticator": BYTES + SIZE + BYTES + BYTES + BYTES,
    "mac": BYTES + SIZE + BYTES + SIZE + BYTES + BYTES,
    "blocks": BYTES + SIZE + BYTES + BYTES,
    "verdict": BYTES + BYTES + U32 + BYTES + U32 + POINTER + POINTER,
    "table_count": BYTES,
    "table_live": BYTES + SIZE,
    "table_match": BYTES + SIZE + BYTES + BYTES,
    "table_marks": BYTES + BYTES + BYTES + BYTES,
    "table_change": BYTES + BYTES + BYTES + U32 + (U32 + U32) * 2 + U32 + SIZE + SIZE + (U32 + U32) * 2 + POINTER,
    "table_insert": BYTES + U32 * 4 + BYTES * 4 + POINTER,
    "table_remove": BYTES + SIZE,
    "handle": BYTES + BYTES + U32 + BYTES + BYTES + BYTES + U32 + POINTER * 4,
    "write": U32 + U8 + BYTES + U32 + BYTES + BYTES + POINTER,
    "check_reply": BYTES + BYTES + BYTES,
}
PRODUCT = {"handle", "write", "check_reply"}  # fbk_NAME of the product's own library; the others are probe_NAME

NULL = None  # a run of no bytes that lies nowhere


class Cell(bytes):
    """A number that C writes to, or an array whose length C knows: a pointer with no length."""


def cell(value):
    """A uint32_t."""
    return Cell(value.to_bytes(4, sys.byteorder))


def cell64(value):
    """An int64_t."""
    return Cell(value.to_bytes(8, sys.byteorder, signed=True))


def found(libraries, name):
    return next(library[name] for library in libraries if hasattr(library, name))


def lay(rooms, arguments):
    """The words of a call, and the room and length of each run of bytes among its arguments, which it ends at the room's fence."""
    words, laid = [], []
    for room, argument in zip(rooms, arguments):
        if argument is NULL:
            words += [None, 0]
        elif isinstance(argument, bytes):
            words += [room.lay(argument)] if isinstance(argument, Cell) else [room.lay(argument), len(argument)]
            laid.append((room, len(argument)))
        else:
            words.append(argument)
    return words, laid


class Probe:
    def __init__(self, paths):
        self.libraries = libraries = [ctypes.CDLL(path) for path in paths]
        self.functions = {}
        for name, words in SIGNATURES.items():
            function = found(libraries, ("fbk_" if name in PRODUCT else "probe_") + name)
            function.argtypes, function.restype = words, ctypes.c_uint32
            self.functions[name] = function
        self.rooms = [Room() for _ in range(max(map(len, SIGNATURES.values())))]

    def __call__(self, name, *arguments):
        """What the function returns, and then each run of bytes as it is after the call, read or written."""
        words, laid = lay(self.rooms, arguments)
        status = self.functions[name](*words)
        return (status, *[room.found(length) for room, length in laid])
