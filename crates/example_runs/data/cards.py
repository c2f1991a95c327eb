#!/usr/bin/env python3
"""Writes the object deck of a listing on standard output: python3 examples/cards.py LISTING > DECK

A line of a listing is the offset of some bytes in four hexadecimal digits, the bytes, and then any words:

    0000 41100800      LA    1,2048

Offsets begin at 0000 and leave no gap. Empty lines and lines that begin with an asterisk are passed over. The deck
has one section, MAIN, of as many bytes: an ESD card, a TXT card for each 56 bytes, and an END card that names no
entry, so that the program begins at offset 0. What the columns of the cards hold is in docs/deck.md.
"""
import sys

BLANK = b"\x40"
SECTION, LABEL, EXTERNAL, WEAK = 0, 1, 2, 10


def bytes_of(listing):
    text = bytearray()
    for number, line in enumerate(listing, 1):
        words = line.split()
        if not words or line.startswith("*"):
            continue
        if int(words[0], 16) != len(text):
            sys.exit(f"line {number}: the offset is {len(text):04X}")
        text += bytes.fromhex(words[1])
    return bytes(text)


def card(kind, address, count, esdid, data):
    """A card of 80 bytes; a field that is None is blank."""
    fields = [b"\x02" + kind.encode("cp037") + BLANK]
    for value, width, filler in ((address, 3, 2), (count, 2, 2), (esdid, 2, 0)):
        fields += [BLANK * width if value is None else value.to_bytes(width, "big"), BLANK * filler]
    return b"".join([*fields, data]).ljust(80, BLANK)


def esd_item(name, sort, address, extent):
    """Of a section the extent is its length, of a label the ESDID of its section."""
    item = name.ljust(8).encode("cp037") + bytes([sort]) + address.to_bytes(3, "big")
    return item + BLANK + extent.to_bytes(3, "big")


def esd_card(esdid, items):
    """At most three items, of which the first that is no label has this ESDID."""
    data = b"".join(items)
    return card("ESD", None, len(data), esdid, data)


def txt_cards(esdid, address, text):
    for at in range(0, len(text), 56):
        part = text[at : at + 56]
        yield card("TXT", address + at, len(part), esdid, part)


def rld_item(target, place, address):
    """The address of an ESDID, the target, is added to the four bytes at an address of a section, the place."""
    return target.to_bytes(2, "big") + place.to_bytes(2, "big") + b"\x0C" + address.to_bytes(3, "big")


def rld_card(items):
    """At most seven items."""
    data = b"".join(items)
    return card("RLD", None, len(data), None, data)


def end_card():
    return card("END", None, None, None, b"")


def deck_of(text):
    section = esd_item("MAIN", SECTION, 0, len(text))
    return b"".join([esd_card(1, [section]), *txt_cards(1, 0, text), end_card()])


def main():
    if len(sys.argv) != 2:
        sys.exit("usage: cards.py LISTING > DECK")
    with open(sys.argv[1], encoding="ascii") as listing:
        sys.stdout.buffer.write(deck_of(bytes_of(listing)))


if __name__ == "__main__":
    main()
