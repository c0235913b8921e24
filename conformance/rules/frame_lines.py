"""What `coord frame` prints for a frame, and random frames."""

import binascii
import random
import uuid

from .fields import TEXT, Reader, Unreadable, put_array, put_int, put_old_text, put_tags, put_text
from .messages import REQUESTS, framed

# The digits of a size, and no line feed.
SHORTEST_LINE = 8
# What `coord frame` calls the fields that are called otherwise here.
CALLED = {"names": "topics"}


class Dice:
    """Random fields, by numbers from `getrandbits` alone, whose answers no version of Python has changed. Counts the tags that it makes."""

    def __init__(self, seed):
        self.bits = random.Random(seed).getrandbits
        self.texts = [self.new_text() for _ in range(2048)]
        self.tag_count = 0

    def below(self, limit):
        return self.bits(32) * limit >> 32

    def one_in(self, count):
        return self.below(count) == 0

    def raw(self, count):
        return self.bits(8 * count).to_bytes(count, "little") if count else b""

    def pick(self, values):
        return values[self.below(len(values))]

    def new_text(self):
        """The bytes of a text in UTF-8, of one to four bytes a character."""
        characters = "abcxyz019-_. \x00\x7f\u00e9\u03bb\u07ff\u0800\u65e5\uffff\U00010348\U0010ffff"
        return "".join(self.pick(characters) for _ in range(self.pick((0, 1, 1, 2, 3, 5, 8, 8, 12, 36)))).encode()

    def text(self):
        return b"t" * self.pick((127, 128, 16_382, 16_383, 32_767)) if self.one_in(20_000) else self.pick(self.texts)

    def number(self, size):
        """A signed number: often a small one, sometimes an end of its range."""
        if self.bits(1):
            return put_int(self.below(1000) - 2, size)
        most = (1 << (8 * size - 1)) - 1
        return put_int(self.pick((0, -1, -2, most, -most - 1, self.bits(8 * size - 1), ~self.bits(8 * size - 1))), size)

    def count(self):
        """How many elements an array has: mostly few."""
        return 125 + self.below(5) if self.one_in(2000) else self.below(3)

    def tags(self):
        count, tag, fields = 0 if self.below(4) else self.count(), self.below(3), []
        for _ in range(count):
            fields.append((tag, self.raw(self.pick((0, 1, 3, 8, 20)))))
            tag += 1 + (self.bits(24) if self.one_in(8) else self.below(3))
        self.tag_count += count
        return put_tags(fields)

    def field(self, kind):
        """The bytes of a field."""
        if kind.name == "number":
            return self.number(*kind.parts)
        if kind.name == "uuid":
            return self.raw(16)
        if kind.name == "struct":
            return b"".join(map(self.field, kind.parts)) + self.tags()
        if kind.parts[-1] is True and self.bits(1):
            return b"\0"
        return put_text(self.text()) if kind.name == "text" else put_array([self.field(kind.parts[0]) for _ in range(self.count())])

    def valid(self):
        """A valid frame, and how many tagged fields it has."""
        before, it = self.tag_count, self.pick([*REQUESTS.values()])
        head = put_int(it.key, 2) + put_int(it.version, 2) + self.number(4) + put_old_text(None if self.bits(1) else self.text()) + self.tags()
        return framed(head + b"".join(map(self.field, it.fields.values())) + self.tags()), self.tag_count - before

    def changed(self):
        """A valid frame of which one byte is another."""
        frame = bytearray(self.valid()[0])
        place = self.below(len(frame))
        frame[place] = (frame[place] + 1 + self.below(255)) % 256
        return bytes(frame), None

    def random(self, size):
        """A frame of random bytes. Every other one begins as a request of a known API does, so that not all end at their first field."""
        body = self.raw(size)
        if self.bits(1):
            it = self.pick([*REQUESTS.values()])
            body = (put_int(it.key, 2) + put_int(it.version, 2) + body)[:size]
        return framed(body), None


def frames(seed, left):
    """Frames whose lines are `left` bytes, each with its tagged fields' number where it is valid, else None. A last line that would not fit
    is a random frame of the size that does."""
    dice, kind = Dice(seed), 0
    while left > 0:
        made = dice.random(dice.below(120)) if kind == 0 else dice.changed() if kind == 1 else dice.valid()
        after = left - (2 * len(made[0]) + 1)
        if after != 0 and after < SHORTEST_LINE:
            made, after = dice.random((left - SHORTEST_LINE) // 2), 0
        yield made
        left, kind = after, (kind + 1) % 3


def write_lines(out, seed, count):
    """The lines of frames, of exactly so many bytes."""
    for frame, _ in frames(seed, count):
        count -= out.write((frame.hex() + "\n").encode()[:count])


# What `coord frame` prints for a frame, by the reader of the rules.


def shown(kind, value):
    """A value as it is printed: a number, a text in hex, or an array's elements."""
    if kind.name == "array":
        return "null" if value is None else "".join(f" {shown(kind.parts[0], it)}" for it in value)
    if kind.name == "struct":
        return f"{uuid.UUID(bytes=value[0])}:{','.join(map(str, value[1]))}"
    if kind.name == "text":
        return "null" if value is None else f"x{value.encode().hex()}"
    return str(value)


def lines_for(fields, reader):
    """A line for each field; of a commit's topics, one for each partition."""
    for name, kind in fields.items():
        value = kind.read(reader)
        if name == "topics":
            for topic, parts in value:
                yield from (f"part {shown(TEXT, topic)} {index} {offset} {leader} {shown(TEXT, said)}" for index, offset, leader, said in parts)
        else:
            yield f"{CALLED.get(name, name)} {shown(kind, value).lstrip(' ')}".rstrip(" ")


class Frames:
    """Reads lines, each by itself."""

    def line(self, line):
        """What `coord frame` prints for a line."""
        if not line:
            raise ValueError("a line is empty")
        return printed_for(binascii.unhexlify(line))

    def report(self):
        return []


def printed_for(frame):
    if len(frame) < 4 or int.from_bytes(frame[:4], "big", signed=True) != len(frame) - 4:
        return "fault size"
    reader = Reader(frame[4:])
    try:
        it = REQUESTS.get(reader.int(2))
        if it is None:
            return "fault 2"
        if reader.int(2) != it.version:
            return "fault 3"
        head = f"{it.__name__.lower()} correlation {reader.int(4)} client {shown(TEXT, reader.old_text())}"
        reader.tags()
        lines = [head, *lines_for(it.fields, reader)]
        reader.tags()
    except Unreadable as why:
        return f"fault 1 {why.fault}"
    return "\n".join([*lines, f"tags {reader.tag_count}"]) if reader.at == len(reader.data) else "fault 4"
