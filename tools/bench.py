"""The bench's verdict on a reply, by the proved judge: qs_judge of target/libquicksetter.so, which `make` links from the proved library."""

import ctypes
import os
from typing import Callable, NamedTuple

ROOT = os.path.dirname(os.path.dirname(os.path.abspath(__file__)))
LIBRARY = os.path.join("target", "libquicksetter.so")

# As in host/quicksetter.h, which test_tools.py compares.
VERDICT_DONE = 0
VERDICT_DONE_WITH_WARNING = 1
VERDICT_ERROR = 256
VERDICT_ERROR_WITH_WARNING = 512
VERDICT_REFUSED = 1024

REFUSALS = (
    "the request is not one the bench writes",
    "reply under 3 bytes",
    "checksum wrong",
    "address not the asked one, or in 55h's reply not the new one",
    "command neither the request's nor 50h",
    "data length not the command's",
    "a number that the reply repeats differs from the request's",
)


class Missing(Exception):
    """The proved judge is not there."""


class Verdict(NamedTuple):
    """What the judge says: `done`, `error` with its code, or `refused` with the number of the refusal, 0 to 6."""

    kind: str
    number: int = 0
    warning: bool = False

    def words(self) -> str:
        """As people write it in a session: `done`, `error 10h with warning`, `refused B3`."""
        number = {"done": "", "error": f" {self.number:02X}h", "refused": f" B{self.number}"}[self.kind]
        return self.kind + number + (" with warning" if self.warning else "")

    def is_wrong(self) -> bool:
        """The reply is none to its request. B0 speaks of the request alone."""
        return self.kind == "refused" and self.number > 0


NOT_A_REQUEST = Verdict("refused", 0)

Judge = Callable[[bytes, bytes], Verdict]


def verdict_of(number: int) -> Verdict:
    """The verdict that a number of qs_judge means."""
    if number in (VERDICT_DONE, VERDICT_DONE_WITH_WARNING):
        return Verdict("done", 0, number == VERDICT_DONE_WITH_WARNING)
    if VERDICT_ERROR <= number < VERDICT_ERROR_WITH_WARNING:
        return Verdict("error", number - VERDICT_ERROR)
    if VERDICT_ERROR_WITH_WARNING <= number < VERDICT_ERROR_WITH_WARNING + 256:
        return Verdict("error", number - VERDICT_ERROR_WITH_WARNING, True)
    refusal = number - VERDICT_REFUSED
    if 0 <= refusal < len(REFUSALS):
        return Verdict("refused", refusal)
    raise Missing(f"the library gives a verdict {number} that host/quicksetter.h does not have; make it anew: make {LIBRARY}")


def load(path: str = "") -> Judge:
    """The judge of a shared object, by default that of make."""
    library = path or os.path.join(ROOT, LIBRARY)
    if not os.path.isfile(library):
        raise Missing(f"the proved judge is not there ({path or LIBRARY}); make it: make {LIBRARY}")
    try:
        entry = ctypes.CDLL(os.path.abspath(library)).qs_judge
    except (OSError, AttributeError) as error:
        raise Missing(f"{path or LIBRARY} has no qs_judge ({error}); make it anew: make {LIBRARY}") from None
    entry.restype = ctypes.c_uint32
    entry.argtypes = [ctypes.c_char_p, ctypes.c_uint64, ctypes.c_char_p, ctypes.c_uint64]
    return lambda request, reply: verdict_of(entry(request, len(request), reply, len(reply)))
