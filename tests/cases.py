"""The launches that the programs are run on, each with what page 01 says of it: a refusal, or that it is accepted.

A case changes what it names in the page's "A launch in full", so it shows one rule, or which of two answers first.
What an accepted launch comes to is worked out in launches.py.
"""
import itertools
import pathlib
import struct
import tempfile

import outside
from launches import (
    BFV,
    BOOT,
    FIRMWARE,
    HANDOFF,
    HIGH,
    IMAGE,
    LOW,
    MAP,
    MMIO,
    PAGE,
    RAM,
    SPARE,
    boot,
    config,
    handoff,
    image,
    record,
    section,
    spare,
    with_boot,
    with_config,
    with_handoff,
    with_spare,
)


def refused(number, index=None):
    return f"refused {number}\n" if index is None else f"refused {number} section {index}\n"


# Stands for what the page says of an accepted launch, which is worked out when it is compared.
ACCEPTED = "accepted"


def images():
    """Rules 3 and 5 to 8: the image's length, the descriptor's start, signature, version and lengths."""
    yield "the page's launch", IMAGE, MAP, ACCEPTED
    yield "empty image", b"", MAP, refused(3)
    yield "image of 31 bytes", bytes(31), MAP, refused(3)
    yield "image of 32 bytes", bytes(32), MAP, refused(5)
    yield "image of 48 bytes, D = 0", bytes(48), MAP, refused(6)
    yield "image of 47 bytes, D = 0", bytes(47), MAP, refused(5)
    yield "no image.bin", None, MAP, refused(3)
    yield "no map.bin", IMAGE, None, refused(4)
    yield "neither", None, None, refused(3)
    yield "image of 65,536 bytes", image([BOOT, HANDOFF, SPARE], length=65536), MAP, ACCEPTED
    yield "image of 65,537 bytes", image([BOOT, HANDOFF, SPARE], length=65537), MAP, "too long\n"
    yield "image of 65,537 bytes, no map", bytes(65537), None, "too long\n"
    yield "image of 200,000 bytes", bytes(200000), MAP, "too long\n"
    yield "D + 16 = L - 32", image([], start=4096 - 48, size=16, count=1), MAP, refused(8)
    yield "D + 16 = L - 31", image([], start=4096 - 47, size=16, count=1), MAP, refused(5)
    yield "D = 2^32 - 1", IMAGE[:4064] + b"\xff\xff\xff\xff" + IMAGE[4068:], MAP, refused(5)
    yield "D counted from the end", IMAGE[:4064] + struct.pack("<I", 4096 - 3952) + IMAGE[4068:], MAP, refused(6)
    yield "descriptor at 0", image([boot(offset=0), HANDOFF, SPARE], start=0), MAP, ACCEPTED
    for at in range(4):
        wrong = bytearray(b"TDVF")
        wrong[at] ^= 1
        yield f"signature, byte {at}", image([BOOT, HANDOFF, SPARE], signature=bytes(wrong)), MAP, refused(6)
    yield "version 0", image([BOOT, HANDOFF, SPARE], version=0), MAP, refused(7)
    yield "version 2", image([BOOT, HANDOFF, SPARE], version=2), MAP, refused(7)
    yield "version 257", image([BOOT, HANDOFF, SPARE], version=257), MAP, refused(7)
    yield "signature and version", image([BOOT], signature=b"TDVX", version=2), MAP, refused(6)
    yield "no sections", image([], count=0, size=16), MAP, refused(8)
    yield "33 sections", image([BOOT, HANDOFF] + [SPARE] * 31), MAP, refused(8)
    yield "2^27 sections", image([BOOT, HANDOFF, SPARE], count=2**27 + 3), MAP, refused(8)
    yield "length field one more", image([BOOT, HANDOFF, SPARE], size=113), MAP, refused(8)
    yield "length field one less", image([BOOT, HANDOFF, SPARE], size=111), MAP, refused(8)
    yield "length field of two sections", image([BOOT, HANDOFF, SPARE], size=80), MAP, refused(8)
    yield "descriptor at 3,953", image([BOOT, HANDOFF, SPARE], start=3953), MAP, refused(8)
    yield "descriptor at 3,952", image([BOOT, HANDOFF, SPARE], start=3952), MAP, ACCEPTED


def maps():
    """Rule 4: the memory map."""
    yield "empty map", IMAGE, b"", refused(4)
    yield "map of 23 bytes", IMAGE, LOW[:23], refused(4)
    yield "map of 25 bytes", IMAGE, LOW + b"\0", refused(4)
    yield "map of 47 bytes", IMAGE, MAP[:47], refused(4)
    above = 0x100000000
    many = [record(above + 2 * PAGE * k, PAGE, FIRMWARE) for k in range(200)]
    yield "64 records", IMAGE, MAP + b"".join(many[:62]), ACCEPTED
    yield "65 records", IMAGE, MAP + b"".join(many[:63]), refused(4)
    yield "170 records", IMAGE, MAP + b"".join(many[:168]), refused(4)
    yield "202 records", IMAGE, MAP + b"".join(many[:200]), refused(4)
    yield "start not a multiple", IMAGE, record(1, 0x10000, RAM) + HIGH, refused(4)
    yield "start not a multiple, second record", IMAGE, LOW + record(0xFFFFF800, 0x1000, FIRMWARE), refused(4)
    yield "length not a multiple", IMAGE, record(0, 0x10001, RAM) + HIGH, refused(4)
    yield "length 2,048", IMAGE, LOW + record(0xFFFFF000, 0x800, FIRMWARE), refused(4)
    yield "length 0", IMAGE, record(0, 0, RAM) + HIGH, refused(4)
    yield "length 0, last record", IMAGE, MAP + record(above, 0, RAM), refused(4)
    top = 2**48
    ram = record(0, top, RAM)
    in_ram = [boot(address=0x20000), HANDOFF, SPARE]
    yield "end at 2^48", image(in_ram), ram, ACCEPTED
    yield "end at 2^48, boot volume outside", image([boot(address=top), HANDOFF, SPARE]), ram, refused(14, 0)
    yield "end at 2^48 + 4,096", image(in_ram), record(0, top + PAGE, RAM), refused(4)
    yield "last record's end at 2^48", IMAGE, MAP + record(top - PAGE, PAGE, MMIO), ACCEPTED
    yield "last record's end above", IMAGE, MAP + record(top - PAGE, 2 * PAGE, MMIO), refused(4)
    yield "record at 2^48", IMAGE, MAP + record(top, PAGE, MMIO), refused(4)
    yield "end past 2^64", IMAGE, MAP + record(2**64 - PAGE, 2 * PAGE, MMIO), refused(4)
    yield "end at 2^64", IMAGE, MAP + record(2**64 - PAGE, PAGE, MMIO), refused(4)
    yield "kind 0", IMAGE, MAP + record(above, PAGE, 0), refused(4)
    yield "kind 4", IMAGE, MAP + record(above, PAGE, 4), refused(4)
    yield "kind 257", IMAGE, MAP + record(above, PAGE, 257), refused(4)
    yield "kind 3", IMAGE, MAP + record(above, PAGE, MMIO), ACCEPTED
    yield "filler 1", IMAGE, LOW + record(0xFFFFF000, 0x1000, FIRMWARE, 1), refused(4)
    yield "filler 2^31", IMAGE, record(0, 0x10000, RAM, 2**31) + HIGH, refused(4)
    yield "overlap by a page", IMAGE, LOW + record(0xF000, 0x1000, MMIO) + HIGH, refused(4)
    yield "the same record twice", IMAGE, LOW + LOW + HIGH, refused(4)
    yield "records out of order", IMAGE, HIGH + LOW, refused(4)
    yield "touching records", IMAGE, LOW + record(0x10000, 0x1000, MMIO) + HIGH, ACCEPTED
    yield "overlap with a record before the last", IMAGE, LOW + HIGH + record(0x20000, 0x1000, RAM), refused(4)


def typed():
    """Rules 9 and 10: a section's type and attributes."""
    for sort in (4, 5, 256, 2**31):
        wrong = section(0, 0, 0xA000, 0x2000, sort, 0)
        yield f"type {sort}", image([BOOT, HANDOFF, wrong]), MAP, refused(9, 2)
    yield "type 4 in section 0", image([section(0, 0, 0, 0, 4, 0), HANDOFF, SPARE]), MAP, refused(9, 0)

    yield "boot volume, attributes 0", with_boot(attributes=0), MAP, refused(10, 0)
    yield "boot volume, attributes 2", with_boot(attributes=2), MAP, refused(10, 0)
    yield "boot volume, attributes 3", with_boot(attributes=3), MAP, refused(10, 0)
    yield "boot volume, attributes 2^31 + 1", with_boot(attributes=2**31 + 1), MAP, refused(10, 0)
    yield "configuration volume, attributes 0", with_config(), MAP, ACCEPTED
    yield "configuration volume, attributes 1", with_config(attributes=1), MAP, ACCEPTED
    yield "configuration volume, attributes 2", with_config(attributes=2), MAP, refused(10, 3)
    yield "configuration volume, attributes 257", with_config(attributes=257), MAP, refused(10, 3)
    yield "TD HOB, attributes 1", with_handoff(attributes=1), MAP, refused(10, 1)
    yield "TD HOB, attributes 2", with_handoff(attributes=2), MAP, refused(10, 1)
    yield "temporary memory, attributes 1", with_spare(attributes=1), MAP, refused(10, 2)
    yield "temporary memory, attributes 4", with_spare(attributes=4), MAP, refused(10, 2)


def sized():
    """Rules 11 to 13: a section's data, and its address and size in memory."""
    yield "boot volume, raw size 0", with_boot(raw=0), MAP, refused(11, 0)
    yield "boot volume, raw size 1", with_boot(raw=1), MAP, ACCEPTED
    yield "configuration volume, raw size 0", with_config(raw=0), MAP, refused(11, 3)
    yield "TD HOB, raw size 1", with_handoff(raw=1), MAP, refused(11, 1)
    yield "TD HOB, data offset 1", with_handoff(offset=1), MAP, refused(11, 1)
    yield "temporary memory, raw size 4,096", with_spare(raw=4096), MAP, refused(11, 2)
    yield "temporary memory, data offset 4,096", with_spare(offset=4096), MAP, refused(11, 2)

    yield "boot volume, raw size 4,097", with_boot(raw=4097), MAP, refused(12, 0)
    yield "data of 4,096 at 1", with_boot(offset=1), MAP, refused(12, 0)
    yield "data of 1 at 4,095", with_boot(offset=4095, raw=1), MAP, ACCEPTED
    yield "data of 1 at 4,096", with_boot(offset=4096, raw=1), MAP, refused(12, 0)
    yield "data's end past 2^32", with_boot(offset=2**32 - 4096), MAP, refused(12, 0)
    yield "configuration volume's data outside", with_config(offset=4095, raw=2), MAP, refused(12, 3)

    yield "address not a multiple", with_spare(address=0xA001), MAP, refused(13, 2)
    yield "address a multiple of 2,048", with_spare(address=0xA800), MAP, refused(13, 2)
    yield "size not a multiple", with_spare(size=0x2001), MAP, refused(13, 2)
    yield "size 2,048", with_spare(size=0x800), MAP, refused(13, 2)
    yield "size 0", with_spare(size=0), MAP, refused(13, 2)
    yield "boot volume, size 0", with_boot(size=0, raw=1), MAP, refused(13, 0)
    big = image([boot(raw=4097), HANDOFF, SPARE], length=8192)
    yield "size below the raw size", big, MAP, refused(13, 0)
    yield "size at the raw size", image([boot(raw=8192, size=0x2000, address=0x1000), HANDOFF, SPARE], length=8192), MAP, ACCEPTED


def lying():
    """Rules 14 and 15: where a section lies, and what it shares with an earlier one."""
    yield "temporary memory at 0xF000", with_spare(address=0xF000), MAP, refused(14, 2)
    yield "temporary memory at 0xE000", with_spare(address=0xE000), MAP, ACCEPTED
    yield "outside every record", with_spare(address=0x20000), MAP, refused(14, 2)
    yield "before the first record", with_spare(address=0), record(0x8000, 0x8000, RAM) + HIGH, refused(14, 2)
    yield "starts before its record", with_spare(address=0x7000), record(0x8000, 0x8000, RAM) + HIGH, refused(14, 2)
    wide = LOW + record(0x20000, 0x1000, FIRMWARE) + record(0x30000, 0x1000, MMIO) + HIGH
    yield "temporary memory in firmware", with_spare(address=0x20000, size=0x1000), wide, refused(14, 2)
    yield "temporary memory in MMIO", with_spare(address=0x30000, size=0x1000), wide, refused(14, 2)
    yield "TD HOB in firmware", with_handoff(address=0x20000), wide, refused(14, 1)
    yield "TD HOB in MMIO", with_handoff(address=0x30000), wide, refused(14, 1)
    yield "boot volume in RAM", with_boot(address=0xF000), wide, ACCEPTED
    yield "boot volume in MMIO", with_boot(address=0x30000), wide, refused(14, 0)
    yield "configuration volume in firmware", with_config(address=0x20000), wide, ACCEPTED
    yield "configuration volume in MMIO", with_config(address=0x30000), wide, refused(14, 3)
    touching = record(0, 0xB000, RAM) + record(0xB000, 0x5000, RAM) + HIGH
    yield "across touching records", IMAGE, touching, refused(14, 2)
    yield "up to where records touch", with_spare(address=0xA000, size=0x1000), touching, ACCEPTED
    yield "section's end past 2^64", with_spare(address=2**64 - PAGE), MAP, refused(14, 2)
    yield "size of 2^64 - 4,096", with_spare(address=0x1000, size=2**64 - PAGE), MAP, refused(14, 2)
    top = MAP + record(2**48 - 0x10000, 0x10000, RAM)
    yield "section's end at 2^48", with_spare(address=2**48 - 0x2000), top, ACCEPTED
    yield "section's end above 2^48", with_spare(address=2**48 - 0x1000), top, refused(14, 2)

    yield "temporary memory at 0x9000", with_spare(address=0x9000), MAP, refused(15, 2)
    yield "its last page shared", with_spare(address=0x8000), MAP, refused(15, 2)
    yield "inside an earlier section", image([BOOT, handoff(size=0x4000), spare(address=0xB000, size=0x1000)]), MAP, refused(15, 2)
    yield "around an earlier section", with_spare(address=0x8000, size=0x4000), MAP, refused(15, 2)
    yield "its first page shared", image([BOOT, handoff(size=0x3000), spare(address=0xB000)]), MAP, refused(15, 2)
    yield "just before the earlier", with_spare(address=0x7000), MAP, ACCEPTED
    yield "just behind the earlier", with_spare(address=0xA000), MAP, ACCEPTED
    yield "with section 0 of four", image([boot(address=0xC000), HANDOFF, SPARE, config()]), MAP, refused(15, 3)
    yield "with section 2 of four", image([BOOT, HANDOFF, SPARE, config(address=0xB000)]), MAP, refused(15, 3)
    yield "image bytes shared", image([BOOT, HANDOFF, SPARE, config(offset=0, raw=4096)]), MAP, ACCEPTED


def whole():
    """Rules 16 to 19: all sections together."""
    yield "no boot volume", image([HANDOFF, SPARE]), MAP, refused(16)
    yield "configuration volume alone", image([config(), HANDOFF]), MAP, refused(16)
    yield "two boot volumes", image([BOOT, HANDOFF, SPARE, boot(address=0x1000)]), MAP, ACCEPTED
    yield "no TD HOB", image([BOOT, SPARE]), MAP, refused(17)
    yield "two TD HOBs", image([BOOT, HANDOFF, SPARE, handoff(address=0xC000)]), MAP, refused(17)
    yield "three TD HOBs", image([BOOT, HANDOFF, handoff(address=0xC000), handoff(address=0xD000)]), MAP, refused(17)
    yield "neither boot volume nor TD HOB", image([SPARE]), MAP, refused(16)

    large = record(0, 0x10000, RAM) + record(0x10000000, 0x10000000, RAM) + HIGH
    for pages, expected in ((4095, ACCEPTED), (4096, ACCEPTED), (4097, refused(18)), (4098, refused(18))):
        some = spare(address=0x10000000, size=(pages - 2) * PAGE)
        yield f"{pages} pages", image([BOOT, HANDOFF, some]), large, expected
    alone = spare(address=0x10000000, size=4097 * PAGE)
    yield "a section of 4,097 pages", image([BOOT, HANDOFF, alone]), large, refused(18)
    half = record(0x100000000, 2**47, RAM)
    vast = spare(address=0x100000000, size=2**47)
    yield "a section of 2^35 pages", image([BOOT, HANDOFF, vast]), MAP + half, refused(18)
    yield "no boot volume and 4,098 pages", image([HANDOFF, alone]), large, refused(16)
    yield "two TD HOBs and 4,099 pages", image([BOOT, HANDOFF, handoff(address=0xC000), alone]), large, refused(17)
    halves = [spare(address=0x10000000, size=2048 * PAGE), spare(address=0x18000000, size=2047 * PAGE)]
    yield "4,097 pages in four sections", image([BOOT, HANDOFF] + halves), large, refused(18)

    # A list of p pieces has 56 + 48 p + 8 bytes: 84 pieces are 4,096 bytes, and 85 are 4,144.
    for pieces, expected in ((83, ACCEPTED), (84, ACCEPTED), (85, refused(19)), (86, refused(19))):
        yield (f"{pieces} pieces, one page", *cut(pieces, 0x1000), expected)
    yield ("85 pieces, two pages", *cut(85, 0x2000), ACCEPTED)
    yield ("90 pieces and 4,119 pages", *cut(90, 0x1000, large=True), refused(18))


def cut(pieces, size, large=False):
    """An image and a map of so many pieces. A record of RAM has a run, the TD HOB section and a run, and then
    a section and a run for each of 20 sections: 43 pieces. A large one has a section of 4,096 pages and a run.
    The rest are MMIO records, a piece each."""
    sections = [BOOT, handoff(address=0x1000, size=size)]
    sections += [spare(address=0x10000 + 2 * k * PAGE, size=PAGE) for k in range(20)]
    ram, more, made = record(0, 0x100000, RAM), b"", 43
    if large:
        sections += [spare(address=0x10000000, size=4096 * PAGE)]
        more, made = record(0x10000000, 0x10000000, RAM), 45
    mmio = [record(0x1000000 + 2 * k * PAGE, PAGE, MMIO) for k in range(pieces - made)]
    return image(sections), ram + b"".join(mmio) + more + HIGH


def order():
    """Of two broken rules the first is answered; sections are tried one after the other."""
    bad_map = record(0, 0, RAM)
    yield "length and map", bytes(31), bad_map, refused(3)
    yield "map and start", bytes(32), bad_map, refused(4)
    yield "map and signature", image([BOOT], signature=b"XXXX"), bad_map, refused(4)
    yield "version and count", image([BOOT] * 33, version=2), MAP, refused(7)
    yield "count and type", image([section(0, 0, 0, 0, 9, 0)], size=47), MAP, refused(8)
    # Section 0 takes the whole RAM record; section 1 breaks a rule and some or all of those behind it.
    base = spare(address=0, size=0x10000)
    breaks = [
        (9, section(1, 9, 0x9001, 0, 4, 2)),
        (10, section(4097, 0, 0x9001, 0, BFV, 2)),
        (11, section(4097, 0, 0x9001, 0, BFV, 1)),
        (12, section(4096, 1, 0x9001, 0, BFV, 1)),
        (13, section(0, 1, 0x20001, 0x1000, BFV, 1)),
        (14, section(0, 1, 0xF000, 0x2000, BFV, 1)),
        (15, section(0, 1, 0xF000, 0x1000, BFV, 1)),
    ]
    for number, wrong in breaks:
        yield f"from rule {number} on", image([base, wrong]), MAP, refused(number, 1)
    for (early, first), (late, second) in itertools.permutations(breaks[:6], 2):
        yield f"{early} in section 1, {late} in section 2", image([BOOT, first, second]), MAP, refused(early, 1)
    late_in_0 = spare(address=0x20000)
    early_in_1 = section(0, 0, 0x9000, 0x1000, 4, 0)
    yield "14 in section 0, 9 in section 1", image([late_in_0, early_in_1]), MAP, refused(14, 0)
    yield "9 in section 0, 14 in section 1", image([early_in_1, late_in_0]), MAP, refused(9, 0)
    yield "15 in section 2, 9 in section 3", image([BOOT, HANDOFF, HANDOFF, early_in_1]), MAP, refused(15, 2)
    row = [boot(address=0x20000 + k * PAGE) for k in range(29)]
    roomy = LOW + record(0x20000, 0x100000, RAM) + HIGH
    yield "32 sections", image([BOOT, HANDOFF, SPARE] + row), roomy, ACCEPTED
    yield "type in section 31", image([BOOT, HANDOFF, SPARE] + row[:28] + [early_in_1]), roomy, refused(9, 31)
    yield "15 in section 31, with section 30", image([BOOT, HANDOFF, SPARE] + row[:28] + [row[27]]), roomy, refused(15, 31)
    yield "a section's rule and no boot volume", image([HANDOFF, spare(address=0x9000)]), MAP, refused(15, 1)


def measured():
    """Launches whose measured pages hold something: data that ends in a page, and several volumes."""
    filled = bytes(k * 7 % 251 + 1 for k in range(8192))

    def full(sections):
        return image(sections, length=8192, fill=filled)

    for raw in (1, 127, 128, 129, 255, 256, 257, 4095, 4096):
        yield f"raw size {raw}, one page", full([boot(raw=raw), HANDOFF, SPARE]), MAP, ACCEPTED
    long = boot(offset=3, raw=4099, address=0x1000, size=0x3000)
    yield "raw size 4,099 in three pages", full([long, HANDOFF, SPARE]), MAP, ACCEPTED
    for mark in (0, 1):
        volume = config(offset=100, raw=300, attributes=mark)
        yield f"configuration volume of 300 bytes, attributes {mark}", full([BOOT, HANDOFF, SPARE, volume]), MAP, ACCEPTED
    two = [boot(raw=9), config(offset=50, raw=4096, attributes=1), HANDOFF, boot(offset=7, raw=1, address=0x1000)]
    yield "three measured volumes around the TD HOB", full(two), MAP, ACCEPTED
    yield "the TD HOB first", full([HANDOFF, boot(raw=77)]), MAP, ACCEPTED


def every():
    return itertools.chain(images(), maps(), typed(), sized(), lying(), whole(), order(), measured())


def printed(program, held, layout):
    """What the program prints in a folder that has these two files; a file that is None is not there."""
    with tempfile.TemporaryDirectory() as folder:
        for name, content in (("image.bin", held), ("map.bin", layout)):
            if content is not None:
                pathlib.Path(folder, name).write_bytes(content)
        status, text, errors = outside.run(program, cwd=folder)
    return text if status == 0 and not errors else f"status {status}, and on standard error {errors!r}"


def compare(program, says):
    """Runs the program on every case. Of an accepted launch it must print what `says` answers, of another the refusal."""
    cases = list(every())
    for what, held, layout, expected in cases:
        if expected == ACCEPTED:
            expected = says(held, layout)
        outside.check(what, printed(program, held, layout), expected)
    answers = {expected for _, _, _, expected in cases}
    for number in range(3, 20):
        some = any(answer.split()[:2] == ["refused", str(number)] for answer in answers)
        outside.check(f"a case is refused by rule {number}", some, True)
    outside.finish()
