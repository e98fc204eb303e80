"""The encoder's file, made and read by the tests: the layout that host/line/keep.c tells, written down once more."""

import pathlib
import zlib
from typing import NamedTuple

MARK = b"QSBOARD1"
LASTING = 12


class Board(NamedTuple):
    total: int
    bits: int
    codes: bytes
    counter: int
    address: int
    offset: int
    memory: bytes


def board(total=112, bits=24, codes=b"\x55" * 4, counter=0, address=0, offset=0, memory=b"") -> bytes:
    """The bytes of a file."""
    lasting = codes + counter.to_bytes(3, "little") + bytes([address]) + offset.to_bytes(4, "little")
    front = MARK + bytes([total, bits]) + lasting + memory.ljust(17 * total, b"\x00")
    return front + zlib.crc32(front).to_bytes(4, "little")


def put(path: pathlib.Path, data: bytes) -> pathlib.Path:
    path.write_bytes(data)
    return path


def read(path: pathlib.Path) -> Board:
    """What a file holds; it must be whole."""
    data = path.read_bytes()
    assert data[:8] == MARK and zlib.crc32(data[:-4]).to_bytes(4, "little") == data[-4:], f"{path} is damaged"
    total, bits, lasting, memory = data[8], data[9], data[10:22], data[22:-4]
    assert len(memory) == 17 * total, f"{path} has another length"
    number = int.from_bytes
    return Board(total, bits, lasting[:4], number(lasting[4:7], "little"), lasting[7], number(lasting[8:], "little"), memory)
