"""What the participants in a capture announce by the discovery of DDSI-RTPS (8.5): themselves (SPDP),
and their writers and readers (SEDP)."""
import re
import struct
from typing import NamedTuple

PARTICIPANTS, WRITERS, READERS = b"\0\1\0\xc2", b"\0\0\3\xc2", b"\0\0\4\xc2"
DURABILITIES = ("volatile", "transient_local", "transient", "persistent")
NAME = re.compile(r"[A-Za-z0-9_/]{1,64}\Z")
# The settings of a plan's topic that DURABILITY_SERVICE has where nothing is announced (OMG DDS 1.4, 2.2.3).
SETTINGS = "1 - - - - 0"
# What a plan has at most.
MOST_TOPICS, MOST_WRITERS, MOST_READERS = 1024, 4096, 1024


class Endpoint(NamedTuple):
    """What a writer or reader announces of itself; the settings are those of a plan's topic."""

    guid: str
    topic: str
    type: str = ""
    durability: str = "volatile"
    settings: str = SETTINGS


def parameters(octets, order):
    """The parameters at the front, by their ids, each as it came the last time."""
    found, place = {}, 0
    while place + 4 <= len(octets):
        name, length = struct.unpack_from(order + "HH", octets, place)
        if name == 1:
            break
        found[name] = octets[place + 4 : place + 4 + length]
        place += 4 + length
    return found


def text(octets, order):
    """A string of CDR: its length, and then its octets with a zero at the end."""
    if octets is None or len(octets) < 4:
        return None
    length = struct.unpack_from(order + "I", octets)[0]
    found = octets[4 : 4 + max(length - 1, 0)].decode("utf-8", "replace")
    return "".join(one if one.isprintable() else "\ufffd" for one in found)


def settings(octets, order):
    """History, limits and delay of a plan's topic, as a DURABILITY_SERVICE says them."""
    if octets is None or len(octets) < 28:
        return SETTINGS
    seconds, fraction, kind, depth, *limits = struct.unpack_from(order + "iIIiiii", octets)
    history = "all" if kind == 1 else str(max(depth, 1))
    samples, instances, each = ("-" if limit < 1 else str(limit) for limit in limits)
    delay = min(max(seconds, 0) + (fraction > 0), 0x7FFFFFFF)
    return f"{history} {samples} {instances} {each} - {delay}"


def data_messages(datagram):
    """Writer id and payload of each DATA of a datagram that brings data."""
    if len(datagram) < 20 or datagram[:4] != b"RTPS":
        return
    place = 20
    while place + 4 <= len(datagram):
        kind, flags = datagram[place], datagram[place + 1]
        order = "<" if flags & 1 else ">"
        length = struct.unpack_from(order + "H", datagram, place + 2)[0]
        end = place + 4 + length if length or kind in (1, 9) else len(datagram)
        body = datagram[place + 4 : end]
        if kind == 0x15 and flags & 4 and len(body) >= 20:
            begin = 4 + struct.unpack_from(order + "H", body, 2)[0]
            while flags & 2 and begin + 4 <= len(body):
                name, size = struct.unpack_from(order + "HH", body, begin)
                begin += 4 + (0 if name == 1 else size)
                if name == 1:
                    break
            yield body[8:12], body[begin:]
        place = end


def endpoint(found, order):
    """A writer or reader that is announced."""
    kind = struct.unpack_from(order + "I", found[0x1D])[0] if len(found.get(0x1D, b"")) >= 4 else 0
    return Endpoint(
        found[0x5A].hex(),
        text(found.get(5), order) or "",
        text(found.get(7), order) or "",
        DURABILITIES[kind] if kind < len(DURABILITIES) else "volatile",
        settings(found.get(0x1E), order),
    )


def announced(datagrams):
    """The participants, writers and readers that datagrams announce, each once and in order."""
    participants, writers, readers = {}, {}, {}
    for datagram in datagrams:
        for writer, payload in data_messages(datagram):
            if payload[:2] not in (b"\0\3", b"\0\2"):
                continue
            order = "<" if payload[:2] == b"\0\3" else ">"
            found = parameters(payload[4:], order)
            if writer == PARTICIPANTS and len(found.get(0x50, b"")) >= 12:
                participants[found[0x50][:12].hex()] = text(found.get(0x62), order) or ""
            elif writer in (WRITERS, READERS) and len(found.get(0x5A, b"")) == 16:
                (writers if writer == WRITERS else readers)[found[0x5A].hex()] = endpoint(found, order)
    return participants, list(writers.values()), list(readers.values())


def allowed(found):
    """Settings with the largest depth that their limit of samples of an instance allows, and the depth that was announced
    where that is another."""
    depth, samples, instances, each, *rest = found.split()
    if depth == "all" or each == "-" or int(depth) <= int(each):
        return found, None
    return " ".join([each, samples, instances, each, *rest]), depth


def topic_line(name, writers):
    """The plan's line of a topic with these writers, and what it could not say of them."""
    kinds = {writer.durability for writer in writers}
    kind = "persistent" if "persistent" in kinds else "transient"
    shape = "none" if int(writers[0].guid[-2:], 16) & 0x3F == 3 else "hash"
    of_first, above = allowed(writers[0].settings)
    notes = []
    if kinds != {kind}:
        notes.append(f"the writers of `{name}` offer {' and '.join(sorted(kinds))}: the plan has them as {kind}")
    if len({writer.settings for writer in writers}) > 1:
        notes.append(f"the writers of `{name}` announce different settings: the plan has those of the first")
    if above is not None:
        notes.append(f"the first writer of `{name}` announces a depth of {above} above its limit of samples of an instance: the plan has that limit as its depth")
    return f"topic {name} {kind} {shape} {of_first}", notes


def first_of(found, most, what):
    """The first ones, as many as a plan can have, and a note of what is left out."""
    if len(found) <= most:
        return found, []
    return found[:most], [f"of {len(found)} {what} the first {most} are in the plan, for it can have no more"]


def plan_of(writers, readers):
    """Plan text that would list these writers, and what could not be put into it."""
    topics, notes, lines = {}, [], ["prefix 0000000000000000"]
    for writer in writers:
        topics.setdefault(writer.topic, []).append(writer)
    for name in [name for name in topics if not NAME.match(name)]:
        notes.append(f"the topic `{name}` is left out, for a plan can have no such name: give it another one there")
        del topics[name]
    kept, more = first_of(list(topics.items()), MOST_TOPICS, "topics")
    topics = dict(kept)
    notes += more
    for name, found in kept:
        line, more = topic_line(name, found)
        lines.append(line)
        notes += more
    if any(" hash " in line for line in lines):
        notes.append("where a writer sends no key hash inline, as Cyclone DDS by default, put `u32` or `text` for `hash`")
    for name in sorted({reader.topic for reader in readers} - {writer.topic for writer in writers}):
        notes.append(f"the readers of `{name}` are left out, for no writer of it is announced")
    kept_writers, more = first_of([one for one in writers if one.topic in topics], MOST_WRITERS, "writers")
    kept_readers, others = first_of([one for one in readers if one.topic in topics], MOST_READERS, "readers")
    notes += more + others
    lines += [f"writer {one.guid} {one.topic} -" for one in kept_writers]
    lines += [f"reader {one.guid} {one.topic} {one.durability}" for one in kept_readers]
    return "\n".join([*lines, "end", ""]), notes


def summary(datagrams):
    """What datagrams announce, as text, with a plan that would list it."""
    return summed_up(datagrams)[0]


def summed_up(datagrams):
    """What datagrams announce, as text with a plan that would list it, and that plan by itself."""
    participants, writers, readers = announced(datagrams)
    out = [f"participant {prefix} {name}".rstrip() for prefix, name in participants.items()]
    for word, found in (("writer", writers), ("reader", readers)):
        out += [f"{word} {one.guid} topic {one.topic} type {one.type} {one.durability}" for one in found]
    plan, notes = plan_of(writers, readers)
    out += ["", "A plan that lists the writers (its prefix is any 8 octets):", plan]
    return "\n".join([*out, *(f"Note: {note}." for note in notes)]).strip() + "\n", plan
