"""Over which of its connections a member has committed last.

A request may come long after its client gave it up, over a connection that the client has left since. A heartbeat that does is told by its stamp; a
commit has none, and would undo what its member has committed meanwhile.
"""

from __future__ import annotations

from typing import Dict, Tuple

# Of how many members it is known. The ones that committed last stay.
MOST = 100_000


class Newest:
    def __init__(self) -> None:
        self._connections: Dict[Tuple[str, str], int] = {}

    def is_late(self, group: str, member: str, connection: int) -> bool:
        """Whether a member that commits over a connection has done so over a later one before. Whoever names no member is none."""
        if not member:
            return False
        newest = self._connections.pop((group, member), connection)
        self._connections[group, member] = max(newest, connection)
        if len(self._connections) > MOST:
            del self._connections[next(iter(self._connections))]
        return connection < newest
