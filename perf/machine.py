"""The machine at hand, and what compiles, reads and runs machine code of x86-64 on it: there gcc's own tools, elsewhere Debian's cross compiler and its emulator, qemu-x86_64."""

import os
import platform
import shutil
from typing import List

from process import text_of

MEASURED = "x86_64"  # the figures, the stack's bound and the limits are about its machine code
IS_MEASURED = platform.machine() == MEASURED
PREFIX = "" if IS_MEASURED else "x86_64-linux-gnu-"
READERS = ("nm", "readelf", "objdump")
EMULATOR = "qemu-x86_64"
PACKAGES = "" if IS_MEASURED else f" (this machine is {platform.machine()}; Debian has them in gcc-x86-64-linux-gnu, libc6-dev-amd64-cross and qemu-user)"


def tool(name: str) -> str:
    """gcc or one of its binutils, for x86-64."""
    return PREFIX + name


def missing(*names: str) -> List[str]:
    """Those of the tools that are not there; a cross compiler is not there without its C library, and without what runs its programs."""
    lacking = [tool(name) for name in names if shutil.which(tool(name)) is None]
    if not IS_MEASURED and "gcc" in names and shutil.which(EMULATOR) is None:
        lacking.append(EMULATOR)
    if not IS_MEASURED and "gcc" in names and not lacking and not os.path.isabs(text_of([tool("gcc"), "-print-file-name=libc.a"])):
        lacking.append("the C library for x86-64")
    return lacking


def emulator() -> List[str]:
    """The words in front of a program for x86-64; none on such a machine."""
    if IS_MEASURED:
        return []
    return [EMULATOR]
