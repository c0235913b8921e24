"""Consumers with the rebalance protocol of KIP-848, a thread each, that print what happens to them.

usage: consumer.py [-p] [-a] [-l] [-q] [-n COUNT] [-c COMMIT_MS] [-b BLOCK_MS] [-w BLOCK_MS] [-m BYTES] NAME TOPIC,TOPIC.. KEY=VALUE..

They are librdkafka's, by its C interface, or with -p those of confluent-kafka. KEY=VALUE are librdkafka's settings. NAME is the client id; with
-n there are COUNT consumers, NAME1 and so on. Every COMMIT_MS (500; 0 for never) what was read is committed: -a asynchronously, -m with metadata
of BYTES bytes. -b sleeps in the first revocation, -w in the first assignment that isn't empty. -l commits also what was lost. -q prints no
records. Lines on standard input, each for NAME or all:

    quit WHO            closes the consumer; the end of the input quits all
    subscribe WHO T,T   changes the subscription; `-` stands for none
    commit WHO          commits at once

A line that is printed has the seconds, the name, and what happened:

    START VERSION   ASSIGN T:P,..   REVOKE T:P,..   LOST T:P,..   BLOCK   RECORD T P OFFSET VALUE
    COMMIT T:P=OFFSET,..   REFUSED NAME T:P=OFFSET,..   ERROR NAME TEXT   FATAL NAME TEXT   WRONG TEXT   CLOSING   CLOSED

ASSIGN is printed before a partition is read, and REVOKE and LOST before it is given up. Nothing is read after CLOSING.
"""

import argparse
import ctypes
import dataclasses
import queue
import sys
import threading
import time
from typing import Dict, Iterable, List, NamedTuple, Optional, Tuple, Union

POLL_MS = 50
SETTINGS = {"group.protocol": "consumer", "enable.auto.commit": "false", "auto.offset.reset": "earliest", "check.crcs": "true"}
# A topic and an index.
Key = Tuple[str, int]
printing = threading.Lock()


class Record(NamedTuple):
    key: Key
    offset: int
    leader_epoch: int
    value: str


class Fault(NamedTuple):
    name: str
    text: str
    is_fatal: bool


@dataclasses.dataclass
class Place:
    """Where a consumer stands in a partition: the next offset and the one that was committed, None if there is none."""

    next: Optional[int] = None
    committed: Optional[int] = None
    leader_epoch: int = -1


def text(parts: Iterable[Key]) -> str:
    return ",".join(f"{topic}:{index}" for topic, index in parts) or "-"


class Consumer:
    """A consumer, and where it stands in what it owns."""

    def __init__(self, name: str, options: argparse.Namespace) -> None:
        self.name, self.options = name, options
        self.owned: Dict[Key, Place] = {}
        # What is slept in the first revocation and in the first assignment.
        self.sleeps = {"BLOCK": options.block_ms / 1000, "": options.assign_ms / 1000}
        self.asked: "queue.SimpleQueue[List[str]]" = queue.SimpleQueue()

    def say(self, *words: object) -> None:
        with printing:
            print(f"{time.time():.6f} {self.name}", *words, flush=True)

    def tell(self, fault: Fault) -> None:
        self.say("FATAL" if fault.is_fatal else "ERROR", fault.name, fault.text)

    def tell_commit(self, refused: str, parts: Iterable[Tuple[Key, int]]) -> None:
        offsets = ",".join(f"{text([key])}={offset}" for key, offset in parts) or "-"
        self.say(*(["REFUSED", refused] if refused else ["COMMIT"]), offsets)

    def run(self) -> None:
        self.kafka = self.options.kind(self, {"client.id": self.name, **SETTINGS, **dict(self.options.settings)})
        self.say("START", self.kafka.version)
        self.kafka.subscribe(self.options.topics)
        every = self.options.commit_ms / 1000
        due = time.monotonic() + every
        while self.goes_on():
            it = self.kafka.poll()
            if isinstance(it, Fault):
                self.tell(it)
            elif it:
                self.take(it)
            if every and time.monotonic() >= due:
                self.commit([*self.owned], self.options.is_asynchronous)
                due = time.monotonic() + every
        self.say("CLOSING")
        self.kafka.close()
        self.say("CLOSED")

    def goes_on(self) -> bool:
        """Does what was asked for."""
        while not self.asked.empty():
            verb, *what = self.asked.get()
            if verb == "quit":
                return False
            if verb == "subscribe":
                self.kafka.subscribe(what[0])
            else:
                self.commit([*self.owned], self.options.is_asynchronous, again=True)
        return True

    def take(self, it: Record) -> None:
        if it.key not in self.owned:
            self.say(f"WRONG record of {text([it.key])}, which isn't owned")
        place = self.owned.get(it.key, Place())
        if place.next not in (None, it.offset):
            self.say(f"WRONG offset {it.offset} of {text([it.key])} after {place.next}")
        place.next, place.leader_epoch = it.offset + 1, it.leader_epoch
        if not self.options.is_quiet:
            self.say("RECORD", *it.key, it.offset, it.value)

    def commit(self, keys: Iterable[Key], is_asynchronous: bool, again: bool = False) -> None:
        """Commits what was read of these partitions and wasn't committed yet; `again` also what was."""
        places = {key: self.owned[key] for key in keys if key in self.owned and self.owned[key].next is not None}
        new = {key: it for key, it in places.items() if again or it.committed != it.next}
        for it in new.values():
            it.committed = it.next
        if new:
            self.kafka.commit(new, "m" * self.options.bytes, is_asynchronous)

    def sleep_once(self, word: str) -> None:
        seconds, self.sleeps[word] = self.sleeps[word], 0
        if seconds and word:
            self.say(word)
        time.sleep(seconds)

    def assigned(self, keys: List[Key]) -> None:
        self.say("ASSIGN", text(keys))
        self.owned.update({key: Place() for key in keys})
        if keys:
            self.sleep_once("")

    def gives_up(self, keys: List[Key], is_lost: bool) -> None:
        if not is_lost:
            self.sleep_once("BLOCK")
        if not is_lost or self.options.commits_lost:
            self.commit(keys, False, again=is_lost)
        self.say("LOST" if is_lost else "REVOKE", text(keys))
        for key in keys:
            self.owned.pop(key, None)


# ---- librdkafka


class Handle(ctypes.c_void_p):
    """(Of a type of its own it stays one, and is no number of Python, which would be passed as 32 bits.)"""


INT, TEXT, SIZE, OFFSET = ctypes.c_int, ctypes.c_char_p, ctypes.c_size_t, ctypes.c_int64


class Partition(ctypes.Structure):
    _fields_ = [("topic", TEXT), ("index", INT), ("offset", OFFSET)]
    _fields_ += [("metadata", ctypes.c_void_p), ("metadata_size", SIZE), ("opaque", Handle), ("code", INT), ("private", Handle)]


class Partitions(ctypes.Structure):
    _fields_ = [("count", INT), ("room", INT), ("parts", ctypes.POINTER(Partition))]


class Message(ctypes.Structure):
    _fields_ = [("code", INT), ("topic", Handle), ("index", INT), ("value", ctypes.c_void_p), ("size", SIZE)]
    _fields_ += [("key", Handle), ("key_size", SIZE), ("offset", OFFSET), ("private", Handle)]


LIST, PART, MESSAGE = (ctypes.POINTER(it) for it in (Partitions, Partition, Message))
# What the functions rd_kafka_NAME give that don't give a number.
RESULTS = {
    Handle: "conf_new new incremental_assign incremental_unassign",
    TEXT: "version_str err2name error_string rebalance_protocol message_errstr topic_name",
    LIST: "topic_partition_list_new",
    PART: "topic_partition_list_add",
    MESSAGE: "consumer_poll",
}
# A rebalance, a commit and an error are told by the handle, a code, the partitions or a text, and nothing of ours.
OF_PARTITIONS, OF_ERROR, OF_LOG = (ctypes.CFUNCTYPE(None, ctypes.c_void_p, INT, it, ctypes.c_void_p) for it in (LIST, TEXT, TEXT))
CONSUMER, ANY_PARTITION, ASSIGNS, FATAL, NO_OFFSET = 1, -1, -175, -150, -168
TEXT_SIZE = 512


class Calls:
    """The functions of the library, without rd_kafka_ before their names."""

    def __init__(self) -> None:
        self.library, self.strdup = ctypes.CDLL("librdkafka.so.1"), ctypes.CDLL(None).strdup
        self.strdup.restype = ctypes.c_void_p
        for kind, names in RESULTS.items():
            for name in names.split():
                getattr(self, name).restype = kind

    def __getattr__(self, name: str) -> "ctypes._FuncPointer":
        return getattr(self.library, f"rd_kafka_{name}")


def keys_of(parts: LIST) -> List[Key]:
    return [(it.topic.decode(), it.index) for it in parts.contents.parts[: parts.contents.count]] if parts else []


class Library:
    """A consumer of librdkafka."""

    def __init__(self, of: Consumer, settings: Dict[str, str]) -> None:
        self.of, self.calls, self.text = of, Calls(), ctypes.create_string_buffer(TEXT_SIZE)
        conf = self.calls.conf_new()
        for name, value in settings.items():
            if self.calls.conf_set(conf, name.encode(), value.encode(), self.text, TEXT_SIZE):
                sys.exit(f"consumer: {self.text.value.decode()}")
        # (The library calls these for as long as it is there.)
        self.told = {"rebalance": OF_PARTITIONS(self.rebalance), "offset_commit": OF_PARTITIONS(self.committed)}
        self.told.update({"error": OF_ERROR(lambda _, code, why, __: of.tell(self.fault(code, why))), "log": OF_LOG(lambda *_: None)})
        for name, call in self.told.items():
            getattr(self.calls, f"conf_set_{name}_cb")(conf, call)
        self.kafka = self.calls.new(CONSUMER, conf, self.text, TEXT_SIZE)
        if not self.kafka:
            sys.exit(f"consumer: {self.text.value.decode()}")
        self.calls.poll_set_consumer(self.kafka)
        self.version = self.calls.version_str().decode()

    def name_of(self, code: int) -> str:
        return self.calls.err2name(code).decode()

    def listed(self, keys: Iterable[Key]) -> LIST:
        parts = self.calls.topic_partition_list_new(8)
        for topic, index in keys:
            self.calls.topic_partition_list_add(parts, topic.encode(), index)
        return parts

    def subscribe(self, topics: str) -> None:
        parts = self.listed((topic, ANY_PARTITION) for topic in topics.split(",") if topic != "-")
        code = self.calls.subscribe(self.kafka, parts) if parts.contents.count else self.calls.unsubscribe(self.kafka)
        self.calls.topic_partition_list_destroy(parts)
        if code:
            self.of.say("WRONG subscription:", self.name_of(code))

    def commit(self, places: Dict[Key, Place], metadata: str, is_asynchronous: bool) -> None:
        parts = self.listed(places)
        for at, it in enumerate(places.values()):
            part = parts.contents.parts[at]
            part.offset = it.next
            self.calls.topic_partition_set_leader_epoch(ctypes.pointer(part), it.leader_epoch)
            if metadata:
                part.metadata, part.metadata_size = self.calls.strdup(metadata.encode()), len(metadata)
        code = self.calls.commit(self.kafka, parts, is_asynchronous)
        if not is_asynchronous:
            self.tell_commit(code, parts)
        self.calls.topic_partition_list_destroy(parts)

    def tell_commit(self, code: int, parts: LIST) -> None:
        found = parts.contents.parts[: parts.contents.count] if parts else []
        code = code or next((it.code for it in found if it.code), 0)
        if code != NO_OFFSET:
            self.of.tell_commit(self.name_of(code) if code else "", zip(keys_of(parts), (it.offset for it in found)))

    def committed(self, _: int, code: int, parts: LIST, __: object) -> None:
        """A commit that wasn't waited for, or one of the library itself, is answered."""
        if self.of.options.is_asynchronous or not self.of.options.commit_ms:
            self.tell_commit(code, parts)

    def rebalance(self, _: int, code: int, parts: LIST, __: object) -> None:
        """The calls of the classic eager protocol, which 2.8.0 wants if no assignor is set, replace all that is owned."""
        is_eager, assigns = self.calls.rebalance_protocol(self.kafka) == b"EAGER", code == ASSIGNS
        if assigns and is_eager and self.of.owned:
            self.of.gives_up([*self.of.owned], False)
        if assigns:
            self.of.assigned(keys_of(parts))
        else:
            self.of.gives_up(keys_of(parts), bool(self.calls.assignment_lost(self.kafka)))
        if is_eager:
            self.calls.assign(self.kafka, parts if assigns else None)
            return
        fault = (self.calls.incremental_assign if assigns else self.calls.incremental_unassign)(self.kafka, parts)
        if fault:
            self.of.say("WRONG rebalance:", self.calls.error_string(fault).decode())

    def fault(self, code: int, why: bytes) -> Fault:
        if code == FATAL:
            code = self.calls.fatal_error(self.kafka, self.text, TEXT_SIZE)
            return Fault(self.name_of(code), self.text.value.decode(), True)
        return Fault(self.name_of(code), why.decode(), False)

    def poll(self) -> Union[Record, Fault, None]:
        message = self.calls.consumer_poll(self.kafka, POLL_MS)
        if not message:
            return None
        it = message.contents
        try:
            if it.code:
                return self.fault(it.code, self.calls.message_errstr(message))
            key = self.calls.topic_name(it.topic).decode(), it.index
            return Record(key, it.offset, self.calls.message_leader_epoch(message), ctypes.string_at(it.value, it.size).decode())
        finally:
            self.calls.message_destroy(message)

    def close(self) -> None:
        code = self.calls.consumer_close(self.kafka)
        if code not in (0, FATAL):
            self.of.tell(Fault(self.name_of(code), "close", False))
        self.calls.destroy(self.kafka)


# ---- confluent-kafka


class Confluent:
    """A consumer of confluent-kafka."""

    def __init__(self, of: Consumer, settings: Dict[str, str]) -> None:
        import confluent_kafka  # pylint: disable=import-outside-toplevel

        self.of, self.module, self.version = of, confluent_kafka, confluent_kafka.libversion()[0]
        self.kafka = confluent_kafka.Consumer({**settings, "error_cb": lambda it: of.tell(self.fault(it))})

    def fault(self, it: object) -> Fault:
        return Fault(it.name(), it.str(), it.fatal() or it.code() == self.module.KafkaError._FATAL)

    def subscribe(self, topics: str) -> None:
        if topics == "-":
            self.kafka.unsubscribe()
            return
        told = {"on_assign": self.assign, "on_revoke": self.unassign, "on_lost": lambda kafka, parts: self.unassign(kafka, parts, True)}
        self.kafka.subscribe(topics.split(","), **told)

    def assign(self, kafka: object, parts: List) -> None:
        self.of.assigned([(it.topic, it.partition) for it in parts])
        kafka.incremental_assign(parts)

    def unassign(self, kafka: object, parts: List, is_lost: bool = False) -> None:
        self.of.gives_up([(it.topic, it.partition) for it in parts], is_lost)
        kafka.incremental_unassign(parts)

    def commit(self, places: Dict[Key, Place], *_: object) -> None:
        parts = [self.module.TopicPartition(*key, it.next) for key, it in places.items()]
        try:
            refused = [it.error for it in self.kafka.commit(offsets=parts, asynchronous=False) if it.error is not None]
        except self.module.KafkaException as fault:
            refused = [fault.args[0]]
        self.of.tell_commit(refused[0].name() if refused else "", ((key, it.next) for key, it in places.items()))

    def poll(self) -> Union[Record, Fault, None]:
        read = self.kafka.poll(POLL_MS / 1000)
        if read is None or read.error():
            return read and self.fault(read.error())
        return Record((read.topic(), read.partition()), read.offset(), -1, read.value().decode())

    def close(self) -> None:
        self.kafka.close()


def options_of(words: List[str]) -> argparse.Namespace:
    parser = argparse.ArgumentParser(description=__doc__, formatter_class=argparse.RawDescriptionHelpFormatter)
    parser.add_argument("-p", dest="kind", action="store_const", const=Confluent, default=Library)
    for flag, name in (("-a", "is_asynchronous"), ("-l", "commits_lost"), ("-q", "is_quiet")):
        parser.add_argument(flag, dest=name, action="store_true")
    for flag, name, usual in (("-n", "count", 0), ("-c", "commit_ms", 500), ("-b", "block_ms", 0), ("-w", "assign_ms", 0), ("-m", "bytes", 0)):
        parser.add_argument(flag, dest=name, type=int, default=usual)
    parser.add_argument("name")
    parser.add_argument("topics")
    parser.add_argument("settings", nargs="*", type=lambda word: word.split("=", 1))
    return parser.parse_args(words)


def main() -> None:
    options = options_of(sys.argv[1:])
    names = [f"{options.name}{number}" for number in range(1, options.count + 1)] or [options.name]
    consumers = {it: Consumer(it, options) for it in names}
    threads = [threading.Thread(target=it.run) for it in consumers.values()]
    for thread in threads:
        thread.start()
    quits = set()
    while len(quits) < len(names):
        verb, who, *what = (sys.stdin.readline() or "quit all").split()
        for it in (it for it in names if who in ("all", it)):
            consumers[it].asked.put([verb, *what])
            quits |= {it} if verb == "quit" else set()
    for thread in threads:
        thread.join()


if __name__ == "__main__":
    main()
