"""The groups of a coordinator: frames in, frames out."""

from .fields import Unreadable
from .group import Closes, Group, Refusal
from .limits import LARGEST_BODY, MOST_GROUPS
from .messages import Commit, commit_frame, read_request, reply_frame


class Node:
    def __init__(self):
        # The image has for each topic's name its id and the number of its partitions.
        self.groups, self.image = {}, {}

    def tick(self, moment):
        """How many members leave, in all groups."""
        return sum(group.tick(moment) for group in self.groups.values())

    def remembers(self, group, member):
        """The id is a member's, or one of the last ids that were."""
        it = self.groups.get(group)
        return it is not None and (member in it.records or any(m == member for m, _ in it.past))

    def answer(self, frame, stamp, moment):
        """The frame of the reply, or None where the connection is closed."""
        size = int.from_bytes(frame[:4], "big", signed=True)
        if len(frame) < 4 or size != len(frame) - 4 or not 1 <= size <= LARGEST_BODY:
            return None
        try:
            q = read_request(frame[4:])
        except Unreadable:
            return None
        group = self.groups.get(q.group)
        if isinstance(q, Commit):
            absent = [(name, [(part[0], 69) for part in parts]) for name, parts in q.topics]
            return commit_frame(q.correlation, absent if group is None else group.commit(q, self.image))
        try:
            made = group or Group()
            fields = made.heartbeat(q, stamp, moment, self.image, group is None and len(self.groups) >= MOST_GROUPS)
            self.groups[q.group] = made
            return reply_frame(q.correlation, *fields)
        except Refusal as refusal:
            return reply_frame(q.correlation, refusal.code)
        except Closes:
            return None
