"""The proved library's reading and writing of WKB, from a shared object that is made of its archive."""
import ctypes

from model import UNTOUCHED

# Behind the memory that is lent, so many bytes are looked at too.
BEHIND = 96


class Library:
    def __init__(self, path):
        calls = ctypes.CDLL(path)
        self.read, self.write = calls.bintolage_read_wkb, calls.bintolage_write_wkb
        self.read.restype = self.write.restype = ctypes.c_uint8
        byte, length = ctypes.c_void_p, ctypes.c_size_t
        self.read.argtypes = [byte, length, ctypes.c_uint32, byte, length, ctypes.POINTER(ctypes.c_uint32)]
        self.write.argtypes = [byte, length, byte, length, ctypes.POINTER(length)]

    def called(self, data, feature, log_length, memory_length):
        """The number, the count and the memory behind a reading, of which so many bytes were lent as the log."""
        given, memory, count = bytearray(data + UNTOUCHED), bytearray(UNTOUCHED) * memory_length, ctypes.c_uint32(0xA5A5A5A5)
        number = self.read(first(given), len(data), feature, first(memory), log_length, ctypes.byref(count))
        stays(given, data)
        return number, count.value, bytes(memory)

    def wrote(self, data, room, memory_length):
        """The number, the length and the memory behind a writing, of which so many bytes were lent to be written."""
        given, memory, length = bytearray(data + UNTOUCHED), bytearray(UNTOUCHED) * memory_length, ctypes.c_size_t(0xA5A5A5A5A5A5A5A5)
        number = self.write(first(given), len(data), first(memory), room, ctypes.byref(length))
        stays(given, data)
        return number, length.value, bytes(memory)


def stays(given, data):
    """The input of a call is as it was before it."""
    if given[:-1] != data:
        raise AssertionError(f"the input was changed: {data.hex()}")


def first(memory):
    return ctypes.addressof(ctypes.c_char.from_buffer(memory))
