"""Runs a program and gives what it wrote, or fails with what it said."""

import subprocess
from typing import List


class Failure(Exception):
    """Something without which nothing can be measured, or that must not be."""


def run(words: List[str], **more) -> subprocess.CompletedProcess:
    try:
        found = subprocess.run(words, capture_output=True, check=False, **more)
    except OSError as error:
        raise Failure(str(error)) from None
    if found.returncode != 0:
        said = (found.stdout + found.stderr).decode("utf-8", "replace")[-2000:]
        raise Failure(f"{' '.join(words)} ended with status {found.returncode}\n{said}")
    return found


def text_of(words: List[str]) -> str:
    return run(words).stdout.decode("utf-8", "replace")
