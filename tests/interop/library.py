"""The library's other side, called from Python: the request writer and the reply check."""
import ctypes

ROOM = 4096


def buffer(run):
    return (ctypes.c_uint8 * max(len(run), 1)).from_buffer_copy(run or b"\0"), ctypes.c_size_t(len(run))


class Library:
    def __init__(self, path):
        loaded = ctypes.CDLL(str(path))
        self.write_call, self.check_call = loaded.fbk_write, loaded.fbk_check_reply
        self.write_call.restype = self.check_call.restype = ctypes.c_uint32

    def write(self, code, identifier, attributes, add_mac, secret):
        """A request by fbk_write()."""
        out, length = (ctypes.c_uint8 * ROOM)(), ctypes.c_uint32()
        answer = self.write_call(ctypes.c_uint32(code), ctypes.c_uint8(identifier), *buffer(attributes), ctypes.c_uint32(add_mac), *buffer(secret),
                                 out, ctypes.c_size_t(ROOM), ctypes.byref(length))
        if answer != 0:
            raise ValueError(f"fbk_write() answers {answer}")
        return bytes(out[:length.value])

    def check(self, secret, request, reply):
        """What fbk_check_reply() answers."""
        return self.check_call(*buffer(secret), *buffer(request), *buffer(reply))
