"""Replies as a drive sends them, by document 01's layouts and, of segments and emergencies, by ETG.1000.6: a segment's data begin at
byte 9, an emergency's error code at byte 8."""
from stored import le


def header(length, service, mailbox_type=3, counter=1):
    return le(length, 2) + bytes([0, 0, 0, mailbox_type | counter << 4, 0, service << 4])


def sdo(first, index, sub, rest, length=10, **more):
    return header(length, 3, **more) + bytes([first]) + le(index, 2) + bytes([sub]) + rest


def expedited(index, sub, payload, **more):
    return sdo(2 << 5 | (4 - len(payload)) << 2 | 3, index, sub, payload.ljust(4, b"\0"), **more)


def normal(index, sub, payload, complete=None):
    return sdo(2 << 5 | 1, index, sub, le(len(payload) if complete is None else complete, 4) + payload, 10 + len(payload))


def segments_follow(index, sub, complete):
    return sdo(2 << 5 | 1, index, sub, le(complete, 4))


def segment(chunk, last, toggle=0, padded=True):
    """A chunk below 7 bytes as seven with an unused count; `padded=False`: by its length alone."""
    unused = 7 - len(chunk) if padded and len(chunk) < 7 else 0
    return header(len(chunk) + unused + 3, 3) + bytes([toggle << 4 | unused << 1 | last]) + chunk + bytes(unused)


def downloaded(index, sub):
    return sdo(3 << 5, index, sub, bytes(4))


def aborted(index, sub, code):
    return sdo(4 << 5, index, sub, le(code, 4))


def emergency(code, register, data=b"\xd1\xd2\xd3\xd4\xd5", service=1, **more):
    return header(10, service, **more) + le(code, 2) + bytes([register]) + data


def fragment(chunk, first, more, operation=2, left=0, service=8):
    """A list's fragment: the chunk from byte 14 in the first, from 12 in later ones, and 8 more than it in the length field."""
    return (header(len(chunk) + 8, service) + bytes([operation | more << 7, 0]) + le(left, 2)
            + (bytes([1, 0]) if first else b"") + chunk)
