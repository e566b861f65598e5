"""Images and maps for the tests, and what page 01 says that a launch of them comes to.

All of it is built from the page alone; nothing is taken from the Rattle code. The builders start from
the page's "A launch in full". What a launch comes to is worked out here for accepted launches only.
"""
import collections
import hashlib
import struct

PAGE = 4096

BFV, CFV, HOB, TEMP = 0, 1, 2, 3
RAM, FIRMWARE, MMIO = 1, 2, 3

# ---- images and maps


def record(start, length, kind, filler=0):
    return struct.pack("<QQII", start, length, kind, filler)


def section(offset, raw, address, size, sort, attributes):
    return struct.pack("<IIQQII", offset, raw, address, size, sort, attributes)


def image(sections, length=4096, start=None, signature=b"TDVF", version=1, count=None, size=None, fill=None):
    """An image with a descriptor: just below L - 32, or at `start`. The rest is zero, or of `fill`."""
    count = len(sections) if count is None else count
    size = 16 + 32 * len(sections) if size is None else size
    descriptor = signature + struct.pack("<III", size, version, count) + b"".join(sections)
    if start is None:
        start = length - 32 - len(descriptor)
    whole = bytearray(length if fill is None else fill)
    # A descriptor may run into the last 32 bytes, where the word at L - 32 stands.
    whole[start : start + len(descriptor)] = descriptor[: max(0, length - start)]
    struct.pack_into("<I", whole, length - 32, start)
    return bytes(whole)


# "A launch in full"
LOW = record(0, 0x10000, RAM)
HIGH = record(0xFFFFF000, 0x1000, FIRMWARE)
MAP = LOW + HIGH
BOOT = section(0, 4096, 0xFFFFF000, 0x1000, BFV, 1)
HANDOFF = section(0, 0, 0x9000, 0x1000, HOB, 0)
SPARE = section(0, 0, 0xA000, 0x2000, TEMP, 0)
IMAGE = image([BOOT, HANDOFF, SPARE])


def boot(offset=0, raw=4096, address=0xFFFFF000, size=0x1000, attributes=1):
    return section(offset, raw, address, size, BFV, attributes)


def config(offset=0, raw=4096, address=0xC000, size=0x1000, attributes=0):
    return section(offset, raw, address, size, CFV, attributes)


def handoff(offset=0, raw=0, address=0x9000, size=0x1000, attributes=0):
    return section(offset, raw, address, size, HOB, attributes)


def spare(offset=0, raw=0, address=0xA000, size=0x2000, attributes=0):
    return section(offset, raw, address, size, TEMP, attributes)


def with_spare(**changes):
    return image([BOOT, HANDOFF, spare(**changes)])


def with_boot(**changes):
    return image([boot(**changes), HANDOFF, SPARE])


def with_handoff(**changes):
    return image([BOOT, handoff(**changes), SPARE])


def with_config(**changes):
    return image([BOOT, HANDOFF, SPARE, config(**changes)])


# ---- what an accepted launch comes to

Section = collections.namedtuple("Section", "offset raw address size sort attributes")
Record = collections.namedtuple("Record", "start length kind filler")
Piece = collections.namedtuple("Piece", "start length resource attributes")
Planned = collections.namedtuple("Planned", "address offset length sort measured")


def sections_of(image_bytes):
    (start,) = struct.unpack_from("<I", image_bytes, len(image_bytes) - 32)
    (count,) = struct.unpack_from("<I", image_bytes, start + 12)
    return [Section(*struct.unpack_from("<IIQQII", image_bytes, start + 16 + 32 * k)) for k in range(count)]


def records_of(map_bytes):
    return [Record(*fields) for fields in struct.iter_unpack("<QQII", map_bytes)]


def pieces_of(image_bytes, map_bytes):
    """The pieces of the hand-off list, in order."""
    pieces = []
    for held in records_of(map_bytes):
        if held.kind == MMIO:
            pieces.append(Piece(held.start, held.length, 1, 0x403))
        if held.kind != RAM:
            continue
        at, end = held.start, held.start + held.length
        inside = [s for s in sections_of(image_bytes) if held.start <= s.address < end]
        for cut in sorted(inside, key=lambda s: s.address):
            if at < cut.address:
                pieces.append(Piece(at, cut.address - at, 7, 7))
            pieces.append(Piece(cut.address, cut.size, 0, 7))
            at = cut.address + cut.size
        if at < end:
            pieces.append(Piece(at, end - at, 7, 7))
    return pieces


def list_length(image_bytes, map_bytes):
    return 56 + 48 * len(pieces_of(image_bytes, map_bytes)) + 8


def list_end(image_bytes, map_bytes):
    """The first block's last field: the address just past the list."""
    (own,) = [s for s in sections_of(image_bytes) if s.sort == HOB]
    return own.address + list_length(image_bytes, map_bytes)


def plan_of(image_bytes, map_bytes):
    pages = []
    for own in sections_of(image_bytes):
        first, amount = (0, list_length(image_bytes, map_bytes)) if own.sort == HOB else (own.offset, own.raw)
        for done in range(0, own.size, PAGE):
            length = min(PAGE, max(0, amount - done))
            offset = first + done if length else 0
            pages.append(Planned(own.address + done, offset, length, own.sort, own.attributes & 1))
    return pages


def measured_stream(image_bytes, map_bytes):
    def head(name, address):
        return (name.ljust(16, b"\0") + struct.pack("<Q", address)).ljust(128, b"\0")

    parts = []
    for page in plan_of(image_bytes, map_bytes):
        parts.append(head(b"MEM.PAGE.ADD", page.address))
        if page.measured:
            data = image_bytes[page.offset : page.offset + page.length].ljust(PAGE, b"\0")
            for chunk in range(0, PAGE, 256):
                parts += [head(b"MR.EXTEND", page.address + chunk), data[chunk : chunk + 256]]
    return b"".join(parts)


def blocks_of(image_bytes, map_bytes):
    return len(measured_stream(image_bytes, map_bytes)) // 128


def measurement_of(image_bytes, map_bytes):
    return hashlib.sha384(measured_stream(image_bytes, map_bytes)).hexdigest()


def listing_of(image_bytes, map_bytes):
    """What the listing prints."""
    plan = plan_of(image_bytes, map_bytes)
    held, blocks = list_length(image_bytes, map_bytes), blocks_of(image_bytes, map_bytes)
    rows = [f"{p.address:016x} {p.offset} {p.length} {p.sort} {p.measured}\n" for p in plan]
    return f"pages {len(plan)} hob {held} blocks {blocks}\n" + "".join(rows)
