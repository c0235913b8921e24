"""Cases: what each sends, what must hold, where the standard says so, and how sure it is."""

from __future__ import annotations

import dataclasses
from typing import TYPE_CHECKING, Callable

if TYPE_CHECKING:
    from conformance.play import Play

# The standard says so, and clients or other members are harmed otherwise; it says so or means so, and clients get along;
# it leaves it open, so what the broker does is noted and never wrong.
MUST, SHOULD, FREE = "must", "should", "free"


@dataclasses.dataclass(frozen=True)
class Case:
    name: str
    section: str
    level: str
    sends: str
    holds: str
    run: Callable[[Play], None]
    # It waits for the ends of sessions and timeouts.
    is_slow: bool = False

    # What `sends` is, in a story.
    act = "what it sends:"

    @property
    def topic(self) -> str:
        """The module that it stands in, as words."""
        return self.run.__module__.rpartition(".")[2].replace("_", " ")


# Sections of KIP-848.
REQUEST = 'KIP-848, "ConsumerGroupHeartbeat API", request'
VALIDATION = 'KIP-848, "ConsumerGroupHeartbeat API", request validation'
HANDLING = 'KIP-848, "ConsumerGroupHeartbeat API", request handling'
RESPONSE = 'KIP-848, "ConsumerGroupHeartbeat API", response'
GROUP_EPOCH = 'KIP-848, "Group Epoch"'
ASSIGNMENT_EPOCH = 'KIP-848, "Assignment Epoch"'
MEMBER_EPOCH = 'KIP-848, "Member Epoch - Reconciliation of the group"'
MEMBER_ID = 'KIP-848, "Member ID"'
STATIC = 'KIP-848, "Static Membership"'
SESSIONS = 'KIP-848, "Session Management"'
REBALANCE_TIMEOUT = 'KIP-848, "Rebalance Timeout"'
ASSIGNORS = 'KIP-848, "Server Side Assignors"'
OFFSET_COMMITS = 'KIP-848, "OffsetCommit API"'
OFFSET_FETCHES = 'KIP-848, "OffsetFetch API"'
# Other documents.
TAGGED_FIELDS = "KIP-482, tagged fields"
COMPACT = "KIP-482, compact encodings"
GUIDE = "protocol guide"
