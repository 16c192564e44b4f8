"""An independent model of the checksums in a log: SipHash-1-3 with key 0 over all bytes before a checksum line, the low 32 bits."""

from __future__ import annotations

from typing import List, Optional, Tuple

MASK = 2**64 - 1

# What ends the first line of a log with checksums.
FLAG = b" sums\n"


def turn(number: int, count: int) -> int:
    return (number << count | number >> (64 - count)) & MASK


class Sum:
    """The state of the hash after some bytes."""

    def __init__(self) -> None:
        self.words = (0x736F6D6570736575, 0x646F72616E646F6D, 0x6C7967656E657261, 0x7465646279746573)
        self.tail, self.length = b"", 0

    @staticmethod
    def round(a: int, b: int, c: int, d: int) -> Tuple[int, int, int, int]:
        a = a + b & MASK
        c = c + d & MASK
        b = turn(b, 13) ^ a
        d = turn(d, 16) ^ c
        a = turn(a, 32)
        c = c + b & MASK
        a = a + d & MASK
        b = turn(b, 17) ^ c
        d = turn(d, 21) ^ a
        return a, b, turn(c, 32), d

    def write(self, data: bytes) -> None:
        self.length += len(data)
        data = self.tail + data
        whole = len(data) - len(data) % 8
        for at in range(0, whole, 8):
            word = int.from_bytes(data[at:at + 8], "little")
            a, b, c, d = self.words
            a, b, c, d = self.round(a, b, c, d ^ word)
            self.words = a ^ word, b, c, d
        self.tail = data[whole:]

    def line(self) -> bytes:
        """Return the checksum line that follows these bytes."""
        word = int.from_bytes(self.tail.ljust(7, b"\0") + bytes([self.length & 255]), "little")
        a, b, c, d = self.words
        a, b, c, d = self.round(a, b, c, d ^ word)
        a, c = a ^ word, c ^ 255
        for _ in range(3):
            a, b, c, d = self.round(a, b, c, d)
        return b"#%08x\n" % ((a ^ b ^ c ^ d) & 0xFFFFFFFF)


def sum_line(front: bytes) -> bytes:
    """Return the checksum line that follows these bytes at the beginning of a log."""
    hashed = Sum()
    hashed.write(front)
    return hashed.line()


def whole_lines(data: bytes) -> List[bytes]:
    """Return the lines that have an end, each with its LF."""
    return [line + b"\n" for line in data.split(b"\n")[:-1]]


def requests_of(data: bytes) -> List[bytes]:
    """Return the lines of a log after the first one that are not checksums."""
    return [line for line in whole_lines(data)[1:] if not line.startswith(b"#")]


def damage(data: bytes) -> Optional[Tuple[int, int]]:
    """Return the first wrong checksum of a log, after the last one that is right before it (1 if none is), by their lines."""
    hashed, right = Sum(), 1
    for number, line in enumerate(whole_lines(data), 1):
        if line.startswith(b"#"):
            if line != hashed.line():
                return right, number
            right = number
        hashed.write(line)
    return None


def in_pieces(head: bytes, pieces: List[bytes]) -> bytes:
    """Return a log with this first line and these appends, each of which is whole lines."""
    hashed, log = Sum(), b""
    for piece in (head, *pieces):
        hashed.write(piece)
        line = hashed.line()
        hashed.write(line)
        log += piece + line
    return log
