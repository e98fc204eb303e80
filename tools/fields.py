"""A board's fields as its replies tell them, and what a deletion named otherwise than they are stored (02, Req 02)."""

from typing import Dict, List, Optional

from bench import Verdict
from commands import CREATE_FIELD, FIELD_STATUS
from frames import is_good
from status import EXISTS, PARTS


def is_deletion(request: bytes) -> bool:
    """Whether these are a good 4Dh whose status has bit 7 clear."""
    return is_good(request, CREATE_FIELD) and not request[3] & EXISTS


def deletion_of(stored: int) -> int:
    """The status that deletes a field: all bits but bit 7 are the stored ones."""
    return stored & ~EXISTS


def differing(stored: int, named: int) -> List[str]:
    """The parts in which the status of a deletion differs from the stored one."""
    return [name for name, mask in PARTS.items() if (stored ^ named) & mask]


class Fields:
    """The stored status of each field of a board, as far as good replies to 4Ch and 4Dh told it."""

    def __init__(self):
        self.statuses: Dict[int, int] = {}

    def hear(self, request: bytes, reply: bytes, verdict: Verdict):
        """What a reply tells: both commands answer with field and status, which has bit 7 clear where the field is gone."""
        if verdict.kind != "done" or request[1] not in (FIELD_STATUS, CREATE_FIELD):
            return
        field, status = reply[2], reply[3]
        if status & EXISTS:
            self.statuses[field] = status
        else:
            self.statuses.pop(field, None)

    def stored(self, field: int) -> Optional[int]:
        return self.statuses.get(field)
