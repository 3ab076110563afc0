"""The disks and files that the scripts measure, of any length up to their limits."""
import os
import struct

from shared import crc16, manifest_of, padded, short, write_disk

BANK = 67_108_864
PIECE = 1 << 20
LONGEST = 16_777_215

# The loads of two banks that are full, each load as the names and lengths of its files.
FULL_BANKS = {
    "32 loads of 256 files": [[(b"L%02dF%03d" % (load, file), 8_170) for file in range(256)] for load in range(32)],
    "4 loads of one file": [[(b"L%02d" % load, LONGEST - 100)] for load in range(4)],
}


def write_full_bank(path, loads, layout=2):
    """A disk whose bank 0 has these loads of random bytes; gives how many bytes these are."""
    manifest = manifest_of(loads, layout=layout)
    total = sum(size for files in loads for _, size in files)
    assert total + len(manifest) <= BANK
    pieces = (os.urandom(min(PIECE, total - at)) for at in range(0, total, PIECE))
    write_disk(path, BANK, 1, pieces, manifest)
    return total


def header_file(number, last):
    name, part = padded(b"FILE%03d.BIN" % number), padded(b"PART%03d" % number)
    words = (2 + len(name) + len(part) + 14) // 2
    return (b"\0\0" if last else words.to_bytes(2, "big")) + name + part + bytes(14)


def header(files, size):
    sections = [
        padded(b"ABC41-0000-0001"),
        padded(b"APP") + b"\0\7",
        b"\0\1" + padded(b"HW1"),
        b"\0\0",
        files.to_bytes(2, "big") + b"".join(header_file(n, n + 1 == files) for n in range(files)),
        b"\0\0",
    ]
    user = size - 40 - sum(map(len, sections)) - 2 - 2 - 6
    sections += [(user // 2).to_bytes(2, "big") + bytes(user), b"\0\0"]
    pointers, offset = b"", 40
    for section in sections:
        pointers += (offset // 2).to_bytes(4, "big")
        offset += len(section)
    covered = (size // 2).to_bytes(4, "big") + b"\x80\x04\0\0" + pointers + b"".join(sections)
    return covered + crc16(covered).to_bytes(2, "big") + bytes(4)


def media_list(version, bodies):
    entries = [struct.pack(">H", 0 if last else (2 + len(body)) // 2) + body
               for body, last in zip(bodies, [False] * (len(bodies) - 1) + [True])]
    section = struct.pack(">H", len(entries)) + b"".join(entries)
    size = 40 + len(section) + 4
    covered = (struct.pack(">IHHIII", size // 2, version, 0, 10, 20, (40 + len(section)) // 2)
             + padded(b"XYZ5A-0000-0001") + b"\1\1" + section + bytes(2))
    return covered + struct.pack(">H", crc16(covered))


def files_list(count):
    # in no order of their names
    return media_list(0xA004, [padded(b"FILE%04d.BIN" % (number * 389 % count)) + padded(b"\\" + b"A" * 62 + b"\\") + b"\0\1\x29\xb1"
                               for number in range(count)])


def loads_list(count):
    hardware = struct.pack(">H", 4) + padded(b"H" * 240) * 4
    return media_list(0x9004, [padded(b"ABC41-0000-0001") + padded(b"LOAD%04d.LUH" % (number * 389 % count)) + b"\0\1" + hardware
                               for number in range(count)])


def protocol_file(*fields):
    body = b"".join(fields)
    return struct.pack(">I", 6 + len(body)) + b"\x41\x33" + body


def list_file(parts):
    part = short(b"ABC41-0000-0001") + short(b"A") + short(b"NAVDATA")
    return protocol_file(b"\0\1", short(b"HW1"), short(b"SN1"), struct.pack(">H", parts), part * parts)


def status_file(loads):
    load = short(b"APP.LUH") + short(b"ABC41-0000-0001") + b"100\0\3" + short(b"done")
    return protocol_file(b"\0\2", short(b"loading"), b"\0\3" + bytes(4) + b"050", struct.pack(">H", loads), load * loads)
