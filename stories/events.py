"""What happens in a line of a script. Clients are numbered from 0 here, messages from 1."""

from __future__ import annotations

from typing import FrozenSet, List, NamedTuple, Optional, Tuple, Union

from stories.names import Partition

Partitions = FrozenSet[Partition]

# How a message arrives: at once; after its sender gave up waiting or time has passed; or not for the first time.
AT_ONCE, LATE, AGAIN = "", "late", "again"


class Place(NamedTuple):
    """A partition whose offset is committed. A member can commit what it doesn't hold."""

    topic: str
    index: int
    offset: int
    partition: Optional[Partition]
    is_held: bool


class Brought(NamedTuple):
    """A commit comes to the coordinator, which answers with a code for each partition."""

    client: int
    commit: int
    places: List[Place]
    codes: List[int]
    mark: str

    def unheld(self) -> list[Place]:
        """What is accepted of a member that doesn't hold it."""
        return [place for place, code in zip(self.places, self.codes) if code == 0 and not place.is_held]


# A heartbeat leaves its client. A join says that nothing is owned, a short one says nothing.
Sent = NamedTuple("Sent", [("client", int), ("request", int), ("kind", str), ("owned", Optional[Partitions])])
Reply = NamedTuple("Reply", [("number", int), ("code", int), ("epoch", int), ("shows", Optional[Partitions])])
# A request comes to the coordinator, which replies, or closes the connection.
Delivered = NamedTuple("Delivered", [("client", int), ("request", int), ("reply", Optional[Reply]), ("mark", str)])
# A reply comes to its client, which ignores it where it waits for no reply, or for another one.
Taken = NamedTuple("Taken", [("client", int), ("reply", int), ("ignored", bool), ("mark", str)])
GaveUp = NamedTuple("GaveUp", [("client", int)])
Released = NamedTuple("Released", [("client", int), ("partition", Partition)])
Committed = NamedTuple("Committed", [("client", int), ("commit", int), ("places", List[Place])])
# The topics by their ids, each with the number of its partitions.
ImageSet = NamedTuple("ImageSet", [("topics", List[Tuple[bytes, int]])])
ClockSet = NamedTuple("ClockSet", [("moment", int)])
# Of the removed members some may be no client's: their joins were answered, and the reply was lost.
Ticked = NamedTuple("Ticked", [("moment", int), ("removed", int), ("strangers", int)])
# Three rounds in which no message is lost.
Settled = NamedTuple("Settled", [])
Refused = NamedTuple("Refused", [("fault", int)])

Event = Union[Sent, Delivered, Taken, GaveUp, Released, Committed, Brought, ImageSet, ClockSet, Ticked, Settled, Refused]
