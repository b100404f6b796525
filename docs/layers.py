#!/usr/bin/env python3
"""Draws layers.svg: the crates as layers, and the way of a datagram through them."""
import os

LAYERS = [
    ("program", [("durability", "command line, faults"), ("dur_rerun", "list, learn, show, rerun, ..")]),
    ("service", [("dur_hub", "one admitted history"), ("rel_writer", "sessions, late readers")]),
    ("storage", [("dur_record", "texts of a journal"), ("dur_journal", "two files, any crash")]),
    ("histories", [("dur_store", "history of all topics"), ("dur_sets", "open coherent sets"), ("dur_instances", "history of one topic"), ("dur_view", "definitions and laws")]),
    ("streams", [("dur_capture", "records of a capture"), ("dur_qos", "plan text"), ("rel_reader", "known numbers"), ("rtps_discovery", "plans learnt")]),
    ("wire", [("rtps_params", "parameter lists"), ("rtps_submsg", "submessages"), ("rtps_message", "facts, keys, messages"), ("rtps_frag", "fragments joined")]),
    ("threads", [("dur_turn", "one call at a time"), ("turn_uses", "uses of a turn, tests")]),
    ("below all", [("dur_outside", "files, sockets, streams"), ("dur_base", "values, octets")]),
]
WIDTH, LEFT, BOX, TALL, GAP, ROW = 936, 130, 178, 44, 18, 70
WAY = "#b3541e"


def places():
    """The upper left corner of each crate's box."""
    return {
        name: (LEFT + column * (BOX + GAP), 23 + row * ROW)
        for row, (_, crates) in enumerate(LAYERS)
        for column, (name, _) in enumerate(crates)
    }


def layer(row, name, crates, at):
    """One layer with its crates."""
    yield f'<rect x="8" y="{15 + row * ROW}" width="{WIDTH - 16}" height="{TALL + 16}" rx="6" fill="#f3f5f7"/>'
    yield f'<text x="20" y="{49 + row * ROW}" fill="#55606b">{name}</text>'
    for crate, what in crates:
        x, y = at[crate]
        yield f'<rect x="{x}" y="{y}" width="{BOX}" height="{TALL}" rx="5" fill="#ffffff" stroke="#3b6ea5"/>'
        yield f'<text x="{x + BOX // 2}" y="{y + 18}" text-anchor="middle" fill="#1d2b3a" font-weight="bold">{crate}</text>'
        yield f'<text x="{x + BOX // 2}" y="{y + 35}" text-anchor="middle" fill="#55606b" font-size="11">{what}</text>'


def way(at):
    """The way of a datagram: outside, capture, wire, and from there by way of the store, or to the printer of `show`."""
    outside, capture, wire, store, program, printer = (
        at[name] for name in ("dur_outside", "dur_capture", "rtps_params", "dur_store", "durability", "dur_rerun")
    )
    middle, centre, top = TALL // 2, LEFT + BOX // 2, wire[1] - 8
    yield f"M{LEFT} {outside[1] + middle} C{LEFT - 26} {outside[1] + middle} {LEFT - 26} {capture[1] + middle} {LEFT} {capture[1] + middle}"
    yield f"M{centre} {capture[1] + TALL} L{centre} {top}"
    for column, (x, y) in ((1, store), (2, printer)):
        gap = LEFT + column * (BOX + GAP) - GAP // 2
        yield f"M{gap} {top} L{gap} {y + middle} L{x + BOX} {y + middle}"
    yield f"M{LEFT} {store[1] + middle} C{LEFT - 26} {store[1] + middle} {LEFT - 26} {program[1] + middle} {LEFT} {program[1] + middle}"


def drawing():
    at, height = places(), len(LAYERS) * ROW + 22
    yield f'<svg xmlns="http://www.w3.org/2000/svg" viewBox="0 0 {WIDTH} {height}" font-family="sans-serif" font-size="13">'
    yield "<title>The crates as layers, and the way of a datagram through them</title>"
    yield f'<defs><marker id="tip" viewBox="0 0 8 8" refX="7" refY="4" markerWidth="7" markerHeight="7" orient="auto"><path d="M0 0L8 4L0 8z" fill="{WAY}"/></marker></defs>'
    yield f'<rect width="{WIDTH}" height="{height}" fill="#ffffff"/>'
    for row, (name, crates) in enumerate(LAYERS):
        yield from layer(row, name, crates, at)
    for line in way(at):
        yield f'<path d="{line}" fill="none" stroke="{WAY}" stroke-width="1.6" marker-end="url(#tip)"/>'
    for row, words in enumerate(("the way of a datagram:", "list: octets, record, entries, line", "show: octets, record, facts, line")):
        yield f'<text x="{LEFT + 2 * (BOX + GAP)}" y="{34 + row * 16}" fill="{WAY}" font-size="12">{words}</text>'
    yield "</svg>"


if __name__ == "__main__":
    with open(os.path.join(os.path.dirname(os.path.abspath(__file__)), "layers.svg"), "w", encoding="ascii") as out:
        out.write("\n".join(drawing()) + "\n")
