"""What the checks need of archives and ELF objects, little-endian, of 32 and of 64 bits: sections, symbols, relocations."""

import struct
from dataclasses import dataclass, field

WRITE, ALLOC, EXECUTE = 1, 2, 4
NOBITS, SYMTAB, RELA, REL = 8, 2, 4, 9


@dataclass
class Section:
    name: str
    kind: int
    flags: int
    octets: bytes
    size: int
    link: int
    info: int
    relocations: list = field(default_factory=list)

    @property
    def read_only(self):
        return self.flags & ALLOC and not self.flags & (WRITE | EXECUTE)

    @property
    def code(self):
        return bool(self.flags & EXECUTE)

    @property
    def writable(self):
        return self.flags & ALLOC and self.flags & WRITE


@dataclass
class Symbol:
    name: str
    value: int
    size: int
    kind: int
    section: int


@dataclass
class Relocation:
    place: int
    kind: int
    symbol: int


def text(octets, at):
    return octets[at:octets.index(b"\0", at)].decode()


class Object:
    """An ELF object, or a linked image."""

    def __init__(self, octets):
        if octets[:4] != b"\x7fELF" or octets[5] != 1:
            raise ValueError("no little-endian ELF")
        wide = octets[4] == 2
        if wide:
            offset, = struct.unpack_from("<Q", octets, 0x28)
            size, count, names = struct.unpack_from("<HHH", octets, 0x3A)
            header, entry, relocation = "<IIQQQQIIQQ", "<IBBHQQ", "<QQ"
        else:
            offset, = struct.unpack_from("<I", octets, 0x20)
            size, count, names = struct.unpack_from("<HHH", octets, 0x2E)
            header, entry, relocation = "<IIIIIIIIII", "<IIIBBH", "<II"
        rows = [struct.unpack_from(header, octets, offset + i * size) for i in range(count)]
        strings = octets[rows[names][4]:rows[names][4] + rows[names][5]]
        self.sections = []
        for name, kind, flags, _, at, length, link, info, _, _ in rows:
            content = b"" if kind == NOBITS else octets[at:at + length]
            self.sections.append(Section(text(strings, name), kind, flags, content, length, link, info))
        self.symbols = []
        for section in self.sections:
            if section.kind == SYMTAB:
                strings = self.sections[section.link].octets
                for row in struct.iter_unpack(entry, section.octets):
                    if wide:
                        name, info, _, where, value, length = row
                    else:
                        name, value, length, info, _, where = row
                    self.symbols.append(Symbol(text(strings, name), value, length, info & 15, where))
        for section in self.sections:
            if section.kind in (REL, RELA):
                step = struct.calcsize(relocation) + (struct.calcsize(relocation) // 2 if section.kind == RELA else 0)
                for at in range(0, len(section.octets), step):
                    place, info = struct.unpack_from(relocation, section.octets, at)
                    kind, symbol = (info & 0xFFFFFFFF, info >> 32) if wide else (info & 255, info >> 8)
                    self.sections[section.info].relocations.append(Relocation(place, kind, symbol))

    def undefined(self):
        """The names that it expects others to define."""
        return {symbol.name for symbol in self.symbols if symbol.name and symbol.section == 0}


def members(archive):
    """The ELF objects of an archive."""
    if archive[:8] != b"!<arch>\n":
        raise ValueError("no archive")
    at = 8
    while at + 60 <= len(archive):
        length = int(archive[at + 48:at + 58])
        content = archive[at + 60:at + 60 + length]
        if content[:4] == b"\x7fELF":
            yield Object(content)
        at += 60 + length + length % 2
