"""Record batches and their checksums, against bytes of other programs."""

from __future__ import annotations

import unittest

from broker.records import Record, crc32c, record_batch
from broker.tests.support import data

# The check value of CRC-32C, and the examples of RFC 3720, appendix B.4.
CHECKSUMS = [
    (b"", 0x00000000),
    (b"123456789", 0xE3069283),
    (bytes(32), 0x8A9136AA),
    (b"\xff" * 32, 0x62A8AB43),
    (bytes(range(32)), 0x46DD794E),
    (bytes(range(31, -1, -1)), 0x113FDB5C),
]
# Three records with keys, as librdkafka 2.8.0 and 2.14.2 wrote them into a Produce request.
RECORDS = [(b"a", b"one"), (b"b", b"two"), (b"", b"three")]
OF_LIBRDKAFKA = [
    (
        0x1A21C79D4CA,
        "0000000000000000 00000053 00000000 02 225b6f6d 0000 00000002 000001a21c79d4ca 000001a21c79d4ca ffffffffffffffff ffff ffffffff"
        "00000003 14 00 00 00 02 'a' 06 'one' 00 14 00 00 02 02 'b' 06 'two' 00 16 00 00 04 00 0a 'three' 00",
    ),
    (
        0x1A21C79D585,
        "0000000000000000 00000053 00000000 02 5ac5fd20 0000 00000002 000001a21c79d585 000001a21c79d585 ffffffffffffffff ffff ffffffff"
        "00000003 14 00 00 00 02 'a' 06 'one' 00 14 00 00 02 02 'b' 06 'two' 00 16 00 00 04 00 0a 'three' 00",
    ),
]
# A record without a key, as a broker of Apache Kafka gave it out.
OF_KAFKA = (
    "0000000000000000 0000003b 00000001 02 0318a270 0000 00000000 0000015dff7b063c 0000015dff7b063c ffffffffffffffff ffff ffffffff"
    "00000001 12 00 00 00 01 06 '123' 00"
)


class Records(unittest.TestCase):
    def test_checksums(self) -> None:
        self.assertEqual([(text, crc32c(text)) for text, _ in CHECKSUMS], CHECKSUMS)

    def test_batches_of_librdkafka(self) -> None:
        found = [record_batch(0, [Record(moment, key, value) for key, value in RECORDS]) for moment, _ in OF_LIBRDKAFKA]
        self.assertEqual(found, [data(text) for _, text in OF_LIBRDKAFKA])

    def test_batch_of_kafka(self) -> None:
        self.assertEqual(record_batch(0, [Record(0x15DFF7B063C, None, b"123")], leader_epoch=1), data(OF_KAFKA))
