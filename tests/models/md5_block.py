"""One block of MD5 in Python, written from RFC 1321, for work that stops between blocks."""
import math
import struct

FIRST = (0x67452301, 0xEFCDAB89, 0x98BADCFE, 0x10325476)
WORD = 2**32 - 1
SINES = [int(abs(math.sin(i + 1)) * 2**32) for i in range(64)]
TURNS = [(7, 12, 17, 22), (5, 9, 14, 20), (4, 11, 16, 23), (6, 10, 15, 21)]
ROUNDS = [
    (lambda x, y, z: x & y | ~x & z, lambda i: i),
    (lambda x, y, z: x & z | y & ~z, lambda i: (5 * i + 1) % 16),
    (lambda x, y, z: x ^ y ^ z, lambda i: (3 * i + 5) % 16),
    (lambda x, y, z: y ^ (x | ~z), lambda i: 7 * i % 16),
]
STEPS = [(ROUNDS[i // 16][0], ROUNDS[i // 16][1](i % 16), SINES[i], TURNS[i // 16][i % 4]) for i in range(64)]


def after(words, block):
    """The chaining words after 64 more bytes."""
    a, b, c, d = words
    given = struct.unpack("<16I", block)
    for mix, place, sine, turn in STEPS:
        x = (a + (mix(b, c, d) & WORD) + given[place] + sine) & WORD
        a, b, c, d = d, (b + (x << turn | x >> 32 - turn)) & WORD, b, c
    return tuple((old + new) & WORD for old, new in zip(words, (a, b, c, d)))


def blocks(length):
    """How many blocks a message of this many bytes has."""
    return (length + 8) // 64 + 1


def block(message, k):
    """Block k of the message, padded."""
    zeros = bytes(64 * blocks(len(message)) - len(message) - 9)
    return (message + b"\x80" + zeros + (8 * len(message)).to_bytes(8, "little"))[64 * k:64 * (k + 1)]


def digest(words):
    return struct.pack("<4I", *words)
