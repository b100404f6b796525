#!/usr/bin/env python3
"""A reader of the journal's texts of its own, written from docs/FORMATS.md, for tests/records.sh.

`record_model.py texts OUT` writes texts of each kind and version, each with one octet changed at each place and cut
off at each place. `record_model.py faults IN` prints what each of those texts is: a line a text, `good` or its first
break. A text in such a file is its kind (an octet: 1, 2 for entries, 3, 4 for views of version 1, 2), its length as
four octets and the text.
"""
import struct
import sys

GREATEST_NUMBER = 2**63 - 2
GREATEST_LIMIT = 2**31 - 1
CHANGES = (0, 1, 3)
IN_NAMES = frozenset(b"ABCDEFGHIJKLMNOPQRSTUVWXYZabcdefghijklmnopqrstuvwxyz0123456789_/")


class Break(Exception):
    pass


class Text:
    def __init__(self, octets, version):
        self.octets, self.at, self.version = octets, 0, version

    def field(self, width, test=lambda value: True, value=bytes, kind="BadField"):
        if len(self.octets) - self.at < width:
            raise Break(f"Cut {self.at}")
        found = value(self.octets[self.at : self.at + width])
        if not test(found):
            raise Break(f"{kind} {self.at}")
        self.at += width
        return found

    def number(self, width, test=lambda value: True, kind="BadField"):
        return self.field(width, test, lambda octets: int.from_bytes(octets, "little"), kind)

    def optional(self, read):
        return read() if self.number(1, lambda tag: tag <= 1) == 1 else None

    def sample_number(self, test=lambda number: True):
        return self.number(8, lambda number: 1 <= number <= GREATEST_NUMBER and test(number))

    def sample(self, change=False, key=None, of_set=None):
        act = self.number(1, lambda act: act <= 4 and (not change or act in CHANGES))
        fits = {0: (1,), 4: (0,)}.get(act, (0, 1, 2))
        form = self.number(1, lambda form: form in fits)
        self.field(16, lambda found: (act != 4 or found == bytes(16)) and key in (None, found))
        self.number(8)
        self.optional(lambda: self.number(8, lambda ticks: ticks < GREATEST_LIMIT << 32))
        if self.number(1, lambda tag: tag <= 2 and (of_set is None or tag == 2)) == 2:
            self.sample_number(lambda number: of_set in (None, number))
        self.optional(lambda: (self.field(16), self.sample_number()))
        length = self.number(4 * self.version, lambda n: n == 0 if form == 0 else n <= 65344)
        self.field(length)

    def entry(self):
        tag = self.number(1, lambda tag: 1 <= tag <= 3, "BadTag")
        self.number(8)
        self.field(16)
        if tag == 1:
            self.sample_number()
            self.sample()
        if tag == 2:
            first = self.sample_number()
            self.sample_number(lambda last: first <= last)

    def topic(self, topics):
        length = self.number(1, lambda length: 1 <= length <= 64)
        name = self.field(length, lambda name: IN_NAMES.issuperset(name) and all(name != t["name"] for t in topics))
        shape = self.number(1, lambda shape: shape <= 3)
        depth, _, _ = (self.number(4, lambda limit: limit <= GREATEST_LIMIT) for _ in range(3))
        self.number(4, lambda limit: limit <= GREATEST_LIMIT and not 0 < limit < depth)
        self.number(4, lambda limit: limit <= GREATEST_LIMIT)
        self.number(4, lambda delay: delay <= GREATEST_LIMIT)
        topics.append({"name": name, "key": bytes(16) if shape == 0 else None, "depth": depth})

    def writer(self, last, topics, writers):
        guid = self.field(16, lambda guid: all(guid != w["guid"] for w in writers))
        topic = self.number(4, lambda place: place < len(topics))
        following = self.number(8, lambda number: 1 <= number < 2**63)
        count = self.number(8)
        first = None
        for place in range(count):
            number = self.sample_number(lambda number: number + count == following + place)
            first = first or number
            self.number(8, lambda moment: moment <= last)
            self.sample(key=topics[topic]["key"], of_set=first)
        writers.append({"guid": guid, "topic": topic, "open": first or following})

    def instance(self, last, topics, writers, instances):
        before = instances[-1] if instances else {"topic": 0, "key": b""}
        topic = self.number(4, lambda place: before["topic"] <= place < len(topics))
        wanted = topics[topic]["key"]
        later = before["topic"] < topic or not instances
        key = self.field(16, lambda key: wanted in (None, key) and (later or before["key"] < key))
        disposed = self.number(1, lambda flag: flag <= 1)
        quiet = self.optional(lambda: self.number(8, lambda moment: moment <= last))
        depth = topics[topic]["depth"]
        changes = self.number(8, lambda changes: depth == 0 or changes <= depth)
        count = self.number(4, lambda count: (quiet is not None) == (disposed == 1 and count == 0))
        place = -1
        for _ in range(count):
            place = self.number(4, lambda p: p > place and p < len(writers) and writers[p]["topic"] == topic)
        instances.append({"topic": topic, "key": key, "changes": changes, "ordinal": 0})

    def kept(self, last, writers, instances, topic):
        place = self.number(8, lambda p: p < len(instances) and instances[p]["topic"] >= topic)
        instance = instances[place]
        before = instance["ordinal"]
        fits = (lambda n: n == 1) if before == 0 else (lambda n: n > before)
        instance["ordinal"] = self.number(8, lambda n: n <= instance["changes"] and fits(n))
        of_topic = {w["guid"]: w for w in writers if w["topic"] == instance["topic"]}
        writer = of_topic[self.field(16, lambda guid: guid in of_topic)]
        writer["kept"] = self.sample_number(lambda n: writer.get("kept", 0) < n < writer["open"])
        if self.version == 2:
            self.optional(lambda: self.number(8, lambda moment: moment <= last))
        self.sample(change=True, key=instance["key"])
        return instance["topic"]

    def view(self):
        last = self.number(8)
        topics, writers, instances = [], [], []
        for _ in range(self.number(4, lambda count: count <= 1024)):
            self.topic(topics)
        for _ in range(self.number(4, lambda count: count <= 67108864)):
            self.writer(last, topics, writers)
        for _ in range(self.number(8)):
            self.instance(last, topics, writers, instances)
        topic = 0
        for _ in range(self.number(8)):
            topic = self.kept(last, writers, instances, topic)
        if self.at < len(self.octets):
            raise Break(f"BadField {self.at}")

    def entries(self):
        while self.at < len(self.octets):
            self.entry()


def what(kind, octets):
    text = Text(octets, 1 if kind in (1, 3) else 2)
    try:
        text.entries() if kind <= 2 else text.view()
    except Break as broken:
        return str(broken)
    return "good"


# ---- texts to start from


def le(width, *numbers):
    return b"".join(number.to_bytes(width, "little") for number in numbers)


def sample(version, act, form, key, stamp=0, lifespan=None, mark=b"\0", original=None, payload=b""):
    parts = bytes([act, form]) + key + le(8, stamp)
    parts += b"\0" if lifespan is None else b"\1" + le(8, lifespan)
    parts += mark
    parts += b"\0" if original is None else b"\1" + original[0] + le(8, original[1])
    return parts + le(4 * version, len(payload)) + payload


def entries(version):
    took = b"\1" + le(8, 5) + b"g" * 16 + le(8, 3)
    took += sample(version, 0, 1, b"k" * 16, 9, 7 << 32, b"\2" + le(8, 3), (b"o" * 16, 8), b"pq")
    marker = b"\1" + le(8, 5) + b"g" * 16 + le(8, 4) + sample(version, 4, 0, bytes(16))
    return took + b"\2" + le(8, 6) + b"g" * 16 + le(8, 5, 7) + marker + b"\3" + le(8, 7) + b"h" * 16


def topic(name, shape, *limits):
    return bytes([len(name)]) + name + bytes([shape]) + le(4, *limits)


def change(version, place, ordinal, writer, number, key, arrived, act=0):
    parts = le(8, place, ordinal) + writer + le(8, number)
    if version == 2:
        parts += b"\0" if arrived is None else b"\1" + le(8, arrived)
    return parts + sample(version, act, 1 if act == 0 else 2, key, payload=b"v")


def view(version):
    a, b, c = b"a" * 16, b"b" * 16, b"c" * 16
    text = le(8, 40) + le(4, 2)
    text += topic(b"one", 1, 3, 9, 8, 4, 2, 60) + topic(b"two/x", 0, 0, 0, 0, 0, 0, 0)
    text += le(4, 3)
    text += a + le(4, 0) + le(8, 12, 2)
    text += le(8, 10, 30) + sample(version, 0, 1, b"k" * 16, mark=b"\2" + le(8, 10), payload=b"h")
    text += le(8, 11, 31) + sample(version, 1, 0, b"l" * 16, mark=b"\2" + le(8, 10))
    text += b + le(4, 1) + le(8, 2, 0) + c + le(4, 0) + le(8, 2**63 - 1, 0)
    text += le(8, 4)
    text += le(4, 0) + b"i" * 16 + b"\1" + b"\1" + le(8, 20, 0) + le(4, 0)
    text += le(4, 0) + b"j" * 16 + b"\0\0" + le(8, 3) + le(4, 2, 0, 2)
    text += le(4, 0) + b"k" * 16 + b"\1\0" + le(8, 1) + le(4, 1, 2)
    text += le(4, 1) + bytes(16) + b"\0\0" + le(8, 2) + le(4, 1, 1)
    text += le(8, 4)
    text += change(version, 1, 1, a, 4, b"j" * 16, 40) + change(version, 2, 1, c, 7, b"k" * 16, None, 1)
    text += change(version, 1, 3, a, 9, b"j" * 16, 3) + change(version, 3, 1, b, 1, bytes(16), 0)
    return text


def texts():
    for kind, text in ((1, entries(1)), (2, entries(2)), (3, view(1)), (4, view(2))):
        yield kind, text
        for place in range(len(text)):
            yield kind, text[:place]
            for octet in (0, 1, 2, 3, 4, 5, 127, 128, 255, text[place] ^ 1, (text[place] + 1) % 256, (text[place] - 1) % 256):
                yield kind, text[:place] + bytes([octet]) + text[place + 1 :]
        yield kind, text + b"\0"


def main(words):
    if len(words) == 2 and words[0] == "texts":
        with open(words[1], "wb") as out:
            for kind, text in texts():
                out.write(struct.pack("<BI", kind, len(text)) + text)
        return 0
    if len(words) == 2 and words[0] == "faults":
        with open(words[1], "rb") as source:
            octets = source.read()
        at = 0
        while at < len(octets):
            kind, length = struct.unpack_from("<BI", octets, at)
            at += 5 + length
            print(what(kind, octets[at - length : at]))
        return 0
    print(__doc__, file=sys.stderr)
    return 2


if __name__ == "__main__":
    sys.exit(main(sys.argv[1:]))
