#!/usr/bin/env python3
"""Writes the object deck of ELF objects for s390, 31 bits, on standard output:

    python3 examples/elf_cards.py OBJECT.o.. > DECK

Each object becomes a module with one section, which has the name of its file. In it lie the object's own sections
that take storage (.text, .rodata, .data, .bss and the like), one behind another. A global name becomes a label, a name
that another object defines an external name, in capitals and of at most eight characters. An address in four bytes
becomes an item of an RLD card. A distance is put into the text, and has to stay within its object. The program begins
where the first object does. The numbers of ELF are those of its s390 supplement; what the columns of the cards hold is
in docs/deck.md.
"""
import os
import struct
import sys
from collections import namedtuple

sys.dont_write_bytecode = True  # each folder beside this file is an example
from cards import EXTERNAL, LABEL, SECTION, WEAK, end_card, esd_card, esd_item, rld_card, rld_item, txt_cards

Section = namedtuple("Section", "name kind flags address offset size link info alignment entry_size")
Symbol = namedtuple("Symbol", "name value size info other section")
# How a relocation changes its field: a distance in units of so many bytes, or else an address.
Field = namedtuple("Field", "bytes unit")

OBJECT, S390 = 1, 22
SYMBOLS, RELOCATIONS, NO_BYTES = 2, 4, 8
TAKES_STORAGE = 2
UNDEFINED, ABSOLUTE = 0, 0xFFF1
LOCAL_BINDING, WEAK_BINDING = 0, 2
FIELDS = {
    4: Field(4, None),  # R_390_32
    5: Field(4, 1),  # R_390_PC32
    16: Field(2, 1),  # R_390_PC16
    17: Field(2, 2),  # R_390_PC16DBL
    18: Field(2, 2),  # R_390_PLT16DBL
    19: Field(4, 2),  # R_390_PC32DBL
    20: Field(4, 2),  # R_390_PLT32DBL
}
OWN = 1  # the ESDID of the module's section


class Module:
    """The module of an object, as the lists that its cards are written from."""

    def __init__(self, path):
        self.path = path
        with open(path, "rb") as file:
            self.elf = file.read()
        self.read_sections()
        self.read_symbols()
        self.lay_out()
        self.name_all()
        self.addresses = []
        self.relocate()

    def refuse(self, why):
        sys.exit(f"{self.path}: {why}")

    def rows(self, form, offset, size):
        return struct.iter_unpack(form, self.elf[offset : offset + size])

    def read_sections(self):
        if len(self.elf) < 52 or self.elf[:6] != b"\x7fELF\x01\x02":
            self.refuse("no ELF file of 32 bits, leftmost byte first")
        kind, machine, _, _, _, offset, _, _, _, _, _, count, _ = struct.unpack_from(">2H5I6H", self.elf, 16)
        if (kind, machine) != (OBJECT, S390):
            self.refuse("no object for s390")
        self.sections = [Section(*row) for row in self.rows(">10I", offset, 40 * count)]

    def read_symbols(self):
        self.symbols = []
        for table in (it for it in self.sections if it.kind == SYMBOLS):
            names = self.elf[self.sections[table.link].offset :]
            for name, *rest in self.rows(">3I2BH", table.offset, table.size):
                self.symbols.append(Symbol(names[name : names.index(0, name)].decode(), *rest))

    def lay_out(self):
        """Gives each section that takes storage its offset, those without bytes last."""
        self.offsets, self.text, self.length = {}, bytearray(), 0
        taken = [it for it in enumerate(self.sections) if it[1].flags & TAKES_STORAGE]
        for number, it in sorted(taken, key=lambda pair: pair[1].kind == NO_BYTES):
            if it.alignment > 8:
                self.refuse(f"section {number} is aligned to {it.alignment} bytes, and a deck's sections to 8")
            self.length += -self.length % max(it.alignment, 1)
            self.offsets[number] = self.length
            if it.kind != NO_BYTES:
                self.text = self.text.ljust(self.length, b"\0") + self.elf[it.offset : it.offset + it.size]
            self.length += it.size

    def card_name(self, name):
        if len(name) > 8:
            self.refuse(f"the name {name} has more than eight characters")
        return name.upper()

    def name_all(self):
        """The ESD items: the section, the names that are used, the names that are defined."""
        own = self.card_name(os.path.basename(self.path).split(".")[0])
        self.items = [esd_item(own, SECTION, 0, self.length)]
        self.external = {"": None}
        named = [it for it in self.symbols if it.name and it.info >> 4 != LOCAL_BINDING]
        for it in (it for it in named if it.section == UNDEFINED):
            sort = WEAK if it.info >> 4 == WEAK_BINDING else EXTERNAL
            self.items.append(esd_item(self.card_name(it.name), sort, 0, 0))
            self.external[it.name] = len(self.items)
        for it in (it for it in named if it.section != UNDEFINED):
            self.items.append(esd_item(self.card_name(it.name), LABEL, self.offset_of(it), OWN))

    def offset_of(self, symbol):
        if symbol.section not in self.offsets:
            self.refuse(f"{symbol.name} lies in no section that takes storage")
        return self.offsets[symbol.section] + symbol.value

    def place_of(self, symbol):
        """The ESDID that a symbol is counted from, none of an absolute one, and how far it lies behind it."""
        if symbol.section == UNDEFINED:
            return self.external[symbol.name], 0
        if symbol.section == ABSOLUTE:
            return None, symbol.value
        return OWN, self.offset_of(symbol)

    def relocate(self):
        for table in self.sections:
            if table.kind == RELOCATIONS and table.info in self.offsets:
                for at, info, addend in self.rows(">2Ii", table.offset, table.size):
                    if info & 255 not in FIELDS:
                        self.refuse(f"a relocation of type {info & 255} has no place on a card")
                    esdid, behind = self.place_of(self.symbols[info >> 8])
                    self.change(self.offsets[table.info] + at, FIELDS[info & 255], esdid, behind + addend)

    def change(self, at, field, esdid, value):
        if field.unit is None:
            if esdid is not None:
                self.addresses.append(rld_item(esdid, OWN, at))
        elif esdid != OWN:
            self.refuse(f"the distance at {at:06X} leaves its object")
        else:
            value = (value - at) // field.unit
            if not -(256**field.bytes) <= 2 * value < 256**field.bytes:
                self.refuse(f"the distance at {at:06X} is too long")
        self.text[at : at + field.bytes] = (value % 256**field.bytes).to_bytes(field.bytes, "big")

    def cards(self):
        for at in range(0, len(self.items), 3):
            yield esd_card(OWN + at, self.items[at : at + 3])
        yield from txt_cards(OWN, 0, self.text)
        for at in range(0, len(self.addresses), 7):
            yield rld_card(self.addresses[at : at + 7])
        yield end_card()


def main():
    if len(sys.argv) < 2:
        sys.exit("usage: elf_cards.py OBJECT.o.. > DECK")
    modules = [Module(path) for path in sys.argv[1:]]
    sys.stdout.buffer.write(b"".join(it for module in modules for it in module.cards()))


if __name__ == "__main__":
    main()
