"""Replies as the standard lays them out, made of their parts. Where Wireshark reads a part otherwise than the archive's judge, the
frame says by which row of docs/DIFFERENCES.md."""
import itertools
import pathlib
import struct

import judged
from abort_words import ONLY_THEIRS
from frame import Frame, flags, header
from request_frames import COUNTERS, DATA, SUBS, WORDS

ABORT_CODES = pathlib.Path(__file__).resolve().parent.parent / "cases" / "abort-codes.txt"
REQUEST, REPLY, INFORMATION, EMERGENCY = 2, 3, 8, 1
PLACES = [*((index, 4) for index in WORDS), *((0x1018, sub) for sub in SUBS)]


def reply(kind, service, body, parts, otherwise, ours, counter=1, priority=0):
    """The frame of a mailbox header, a CoE header and the body behind them."""
    mailbox = struct.pack("<HHBBH", 2 + len(body), 0, priority << 6, counter << 4 | 3, service << 12) + body
    asked = {**header(counter, 2 + len(body), service), "priority": priority, **parts}
    if priority:
        kind, otherwise = f"{kind}, with a priority", {**otherwise, "priority": ("W3", 0, priority)}
    return Frame(kind, asked, otherwise, mailbox=mailbox, ours=ours)


def sdo(kind, first, index, sub, rest, parts, otherwise, ours, service=REPLY, **more):
    body = struct.pack("<BHB", first, index, sub) + rest
    return reply(kind, service, body, {"specifier": first >> 5, "index": index, "sub-index": sub, **parts}, otherwise, ours, **more)


def expedited(index, sub, data, indicator=1, **more):
    kind, otherwise, size = f"expedited upload of {len(data)}", {}, 4 - len(data)
    if not indicator:
        kind += ", no size indicator"
        otherwise["data"] = ("W2", data.ljust(4, b"\0"), data)
    elif len(data) == 3:
        otherwise["data"] = ("W1", data + b"\0", data)
    parts = {**flags(indicator, 1, size), "complete access": 0, "data": data}
    return sdo(kind, 2 << 5 | size << 2 | 2 | indicator, index, sub, data.ljust(4, b"\0"), parts, otherwise,
               judged.upload(index, sub), **more)


def normal(index, sub, size, data, indicator=1):
    kind, otherwise = "normal upload", {}
    parts = {**flags(indicator, 0, 0), "complete access": 0, "complete size": size, "data": data or None}
    if not indicator:
        kind += ", no size indicator"
        otherwise = {"data": ("W5", struct.pack("<I", size), data), "complete size": ("W5", None, size)}
    elif size > len(data) > 0:
        kind += ", data and segments"
        otherwise = {"data": ("W4", data, None)}
    elif size > 0 and not data:
        kind += ", segments only"
    return sdo(kind, 2 << 5 | indicator, index, sub, struct.pack("<I", size) + data, parts, otherwise,
               judged.normal_upload(index, sub, size))


def download(index, sub):
    return sdo("download reply", 3 << 5, index, sub, bytes(4), {}, {}, judged.place("download", index, sub))


def abort(index, sub, code, service):
    otherwise = {"index": ("W6", None, index), "sub-index": ("W6", None, sub)}
    if service == REPLY:
        otherwise["abort code"] = ("W7", None, code)
    return sdo(f"abort as service {service}", 4 << 5, index, sub, struct.pack("<I", code), {"abort code": code}, otherwise,
               judged.abort, service)


def segment(toggle, last, data):
    """A segment has at least seven bytes, of which the unused count says how many are none of the data."""
    unused, room = max(7 - len(data), 0), data.ljust(7, b"\0")
    parts = {"specifier": 0, "toggle": toggle, "last": last, "unused": unused, "data": data}
    kind, otherwise = ("segment, bytes unused", {"data": ("W9", room, data or None)}) if unused else ("segment", {})
    return reply(kind, REPLY, bytes([toggle << 4 | unused << 1 | last]) + room, parts, otherwise, judged.segment)


def short_segment(toggle, last, data):
    """A segment whose length field is below the standard's 10."""
    parts = {"specifier": 0, "toggle": toggle, "last": last, "unused": 0, "data": data}
    otherwise = {part: ("W10", None, value) for part, value in parts.items()}
    otherwise["mark"] = ("W10", "malformed", None)
    return reply("segment below length 10", REPLY, bytes([toggle << 4 | last]) + data, parts, otherwise, judged.segment)


def information(kind, operation, incomplete, left, rest, parts, otherwise, ours):
    parts = {"operation": operation, "fragments left": left, **parts}
    if incomplete:
        kind += ", incomplete"
        parts["incomplete"] = 1
        otherwise = {**otherwise, "operation": ("W11", operation | 128, operation), "incomplete": ("W11", None, 1)}
    return reply(kind, INFORMATION, struct.pack("<BBH", incomplete << 7 | operation, 0, left) + rest, parts, otherwise, ours)


def first_fragment(kind, data, incomplete=0, left=0):
    parts = {"list kind": kind, "data": data or None}
    return information("list", 2, incomplete, left, struct.pack("<H", kind) + data, parts, {}, judged.fragment("list"))


def later_fragment(data, incomplete=0, left=0):
    otherwise = {"list kind": ("W12", struct.unpack_from("<H", data)[0], None), "data": ("W12", data[2:], data[:-2])}
    return information("list, later fragment", 2, incomplete, left, data, {"data": data}, otherwise, judged.fragment("fragment"))


def information_error(code):
    return information("information error", 7, 0, 0, struct.pack("<I", code), {"abort code": code},
                       {"abort code": ("W13", code, None)}, judged.information_error)


def emergency(code, register, data):
    parts = {"emergency code": code, "register": register, "data": data}
    otherwise = {part: ("W14", None, value) for part, value in parts.items()}
    return reply("emergency", EMERGENCY, struct.pack("<HB", code, register) + data, parts, otherwise, judged.emergency)


def counting(length):
    return bytes(range(0x41, 0x41 + length))


def uploads():
    for index, sub in PLACES:
        yield expedited(index, sub, b"\x11\x22\x33\x44")
    for data, indicator in itertools.product(DATA, (1, 0)):
        if indicator or len(data) < 4:
            yield expedited(0x1018, 4, data, indicator)
    for counter in COUNTERS:
        yield expedited(0x1018, 4, b"\x11\x22\x33\x44", counter=counter)
    for priority in (1, 2, 3):
        yield expedited(0x1018, 4, b"\x11\x22\x33\x44", priority=priority)
    for length in (5, 6, 7, 8, 64, 112):
        yield normal(0x1008, 0, length, counting(length))
        yield normal(0x1008, 0, length - 4, counting(length))
        yield normal(0x1008, 0, length, counting(length), indicator=0)
        yield normal(0x1008, 0, length + 9, counting(length))
    for size in (131070, *(1 << bit for bit in range(17))):
        yield normal(0x1008, 0, size, b"")


def emergencies():
    """The overtemperature of request [5], also with each specifier where an SDO reply has it, and each bit of the eight bytes."""
    for specifier in range(8):
        yield emergency(0x4210 | specifier << 5, 0x08, bytes.fromhex("0102030405"))
    for bit in range(64):
        code, register, data = struct.unpack("<HB5s", struct.pack("<Q", 1 << bit))
        yield emergency(code, register, data)


def replies():
    yield from uploads()
    for index, sub in PLACES:
        yield download(index, sub)
    listed = [int(line.split()[0], 16) for line in ABORT_CODES.read_text().splitlines() if not line.startswith("#")]
    for code, service in itertools.product([*listed, *ONLY_THEIRS, *(1 << bit for bit in range(32))], (REQUEST, REPLY)):
        yield abort(0x2000, 5, code, service)
    for length, toggle, last in itertools.product((*range(16), 100), (0, 1), (0, 1)):
        yield segment(toggle, last, counting(length))
    for length in range(1, 7):
        yield short_segment(1, 1, counting(length))
    for kind, length, incomplete in itertools.product(range(1, 6), (0, 2, 4, 100), (0, 1)):
        yield first_fragment(kind, counting(length), incomplete, 3 * incomplete)
    yield first_fragment(0, struct.pack("<5H", 300, 20, 30, 4, 5))
    for length, incomplete in itertools.product((4, 6, 100), (0, 1)):
        yield later_fragment(counting(length), incomplete, 0x102 * incomplete)
    yield information_error(0x06020000)
    yield from emergencies()
