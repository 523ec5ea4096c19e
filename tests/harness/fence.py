"""Memory with a fence: whoever reads or writes past its end stops the process."""
import ctypes
import mmap

PAGE = mmap.PAGESIZE
PAGES = 5  # more than the longest run
GUARD = b"\xa5" * 16  # stands right before the bytes, where a second fence cannot


class Room:
    """Some pages and after them one that nothing may touch. Bytes are laid so that they end at the fence."""

    def __init__(self):
        self.pages = mmap.mmap(-1, (PAGES + 1) * PAGE)
        self.end = ctypes.addressof(ctypes.c_char.from_buffer(self.pages)) + PAGES * PAGE
        no_access = 0
        if ctypes.CDLL(None).mprotect(ctypes.c_void_p(self.end), ctypes.c_size_t(PAGE), no_access) != 0:
            raise OSError("no fence: mprotect failed")

    def lay(self, data):
        """Their address."""
        laid = GUARD + data
        ctypes.memmove(self.end - len(laid), laid, len(laid))
        return self.end - len(data)

    def found(self, length):
        """The bytes as they are now; None where the guard was written to."""
        found = ctypes.string_at(self.end - length - len(GUARD), length + len(GUARD))
        return found[len(GUARD):] if found.startswith(GUARD) else None
