"""Object files as the compiler wrote them: sections, relocations and symbols of x86-64 ELF, alone or in an archive."""
import struct

ALLOCATED, EXECUTED, WRITTEN = 2, 4, 1
SYMBOLS, RELOCATIONS = 2, 4
LOCAL = 0


class Section:
    def __init__(self, name, kind, flags, data, linked, concerns):
        self.name, self.kind, self.flags, self.data = name, kind, flags, data
        self.linked, self.concerns = linked, concerns
        self.relocated = []

    def is_code(self):
        return self.flags & (ALLOCATED | EXECUTED) == ALLOCATED | EXECUTED

    def is_read_only_data(self):
        return self.flags & (ALLOCATED | EXECUTED | WRITTEN) == ALLOCATED

    def is_written(self):
        return self.flags & (ALLOCATED | WRITTEN) == ALLOCATED | WRITTEN


def _name(table, at):
    return table[at:table.index(b"\0", at)].decode()


def sections(data):
    """The sections of one object file; `relocated` has the offsets that the linker fills in."""
    if data[:6] != b"\x7fELF\x02\x01":
        raise ValueError("no 64-bit little-endian ELF")
    start, = struct.unpack_from("<Q", data, 40)
    size, count, names = struct.unpack_from("<3H", data, 58)
    heads = [struct.unpack_from("<IIQQQQIIQQ", data, start + i * size) for i in range(count)]
    table = data[heads[names][4]:heads[names][4] + heads[names][5]]
    found = [Section(_name(table, h[0]), h[1], h[2], data[h[4]:h[4] + h[5]], h[6], h[7]) for h in heads]
    for section in found:
        if section.kind == RELOCATIONS:
            places = [struct.unpack_from("<Q", section.data, at)[0] for at in range(0, len(section.data), 24)]
            found[section.concerns].relocated += places
    return found


def members(archive):
    """The object files of an archive, without its table of symbols and of long names."""
    with open(archive, "rb") as file:
        data = file.read()
    if data[:8] != b"!<arch>\n":
        raise ValueError("%s is no archive" % archive)
    at, found = 8, []
    while at < len(data):
        name, size = data[at:at + 16].rstrip(), int(data[at + 48:at + 58])
        if name not in (b"/", b"//", b"/SYM64/"):
            found.append(data[at + 60:at + 60 + size])
        at += 60 + size + size % 2
    return found


def _symbols(data):
    """(name, section) of every global symbol; section 0 is somewhere else."""
    found = sections(data)
    for table in (s for s in found if s.kind == SYMBOLS):
        names = found[table.linked].data
        for at in range(0, len(table.data), 24):
            name, info, _, section = struct.unpack_from("<IBBH", table.data, at)
            if info >> 4 != LOCAL and name:
                yield _name(names, name), section


def exported(data):
    return {name for name, section in _symbols(data) if section != 0}


def wanted(data):
    return {name for name, section in _symbols(data) if section == 0}
