"""Sequences made by hand about emergencies: each under the words of request [5] of document 02 that it is about, with the number that
every call must give, and beside 21 its values."""
import replies as r
from desk import COMPLETE_DOWNLOAD, COMPLETE_UPLOAD, Order
from orders import WRITTEN, asked, asked_for_a_segment, counted, down, listed, sequence, up

OVERHEATED = bytes.fromhex("0a00000000130010" "1042" "08" "0102030405")
OVERHEATED_READ = "08 0000 00004210 00000000 0504030201"
NO_VALUES = "00 0000 00000000 00000000 0000000000"


# An SDO reply is due at the seat: the first of a transfer, or a segment's.

def upload(h, seat):
    asked(h, seat, up())


def complete_upload(h, seat):
    asked(h, seat, Order(COMPLETE_UPLOAD, 7, 0x1018, 0, 0, 9))


def download(h, seat):
    asked(h, seat, down())


def complete_download(h, seat):
    asked(h, seat, down(kind=COMPLETE_DOWNLOAD, sub=7))


def first_segment(h, seat):
    asked_for_a_segment(h, seat, 0)


def third_segment(h, seat):
    asked_for_a_segment(h, seat, 2)


KINDS = (upload, download, first_segment)
PLACES = (*KINDS, complete_upload, complete_download, third_segment)


@sequence
def overtemperature(h):
    """In ETG.1000.6 the error code follows the CoE header: bytes 8-9, register 10, five data bytes."""
    for due in PLACES:
        for reply in (OVERHEATED, OVERHEATED + b"\xf1", OVERHEATED.ljust(1486, b"\xf2")):
            due(h, 6)
            h.enter(5, down()).gives(0x01)
            h.receive(6, reply).gives(0x21, OVERHEATED_READ)
            h.receive(6, reply).gives(0x12, NO_VALUES)
            h.send(5).gives(0x02)
            h.receive(5, WRITTEN).gives(0x00)


@sequence
def handed_back(h):
    """Answer 21 now also hands back the five bytes."""
    for code, register, data, read in ((0, 0, bytes(5), NO_VALUES),
                                       (0xffff, 0xff, b"\xff" * 5, "ff 0000 0000ffff 00000000 ffffffffff"),
                                       (0x8130, 0x11, b"\xa1\xa2\xa3\xa4\xa5", "11 0000 00008130 00000000 a5a4a3a2a1"),
                                       (0x0100, 0x80, b"\x00\x00\x00\x00\x01", "80 0000 00000100 00000000 0100000000"),
                                       (0x0001, 0x01, b"\x01\x00\x00\x00\x00", "01 0000 00000001 00000000 0000000001")):
        for due in KINDS:
            due(h, 1)
            h.receive(1, r.emergency(code, register, data)).gives(0x21, read)


@sequence
def cut_short(h):
    """An emergency under 16 bytes is 20, in the place where the 20-byte limit stood."""
    for due in KINDS:
        for length in (8, 9, 11, 12, 13, 14, 15):
            due(h, 2)
            h.receive(2, OVERHEATED[:length]).gives(0x20, NO_VALUES)
            h.send(2).gives(0x12)


@sequence
def byte_8(h):
    """So the header reading must not judge byte 8 when the service is 1, and all that use it follow."""
    overheated = [r.emergency(0x4210 | specifier << 5, 0x08) for specifier in range(8)]
    for due in KINDS:
        for number, reply in (*((0x21, reply) for reply in overheated), (0x20, overheated[4][:15]), (0x20, overheated[7][:15]),
                              (0x20, r.emergency(0x42e0, 0x08, service=2)), (0x20, r.emergency(0x4210, 0x08, service=9)),
                              (0x22, r.emergency(0x4280, 0x08, service=2))):
            due(h, 3)
            h.receive(3, reply).gives(number)


@sequence
def type_and_length_field(h):
    """in the place where the 20-byte limit stood: an unlisted type is 20 before it, and nothing that is looked at later hinders 21"""
    for due in KINDS:
        for number, mailbox_type in ((0x21, 0), (0x21, 4), (0x21, 15), (0x20, 6), (0x20, 14)):
            due(h, 4)
            h.receive(4, r.emergency(0x4210, 0x08, mailbox_type=mailbox_type)).gives(number)
        for length in (b"\x00\x00", b"\x09\x00", b"\x0b\x00", b"\xff\xff"):
            due(h, 4)
            h.receive(4, length + OVERHEATED[2:]).gives(0x21, OVERHEATED_READ)


@sequence
def in_lists(h):
    """Information replies stay as they are."""
    for order in (listed(1), counted()):
        for begun, number, reply in ((False, 0x20, OVERHEATED), (True, 0x20, OVERHEATED), (True, 0x20, OVERHEATED[:11]),
                                     (False, 0x00, fragment(b"ab", True)), (False, 0x02, fragment(b"ab", True, more=True)),
                                     (False, 0x25, fragment(b"ab", True)[:15]), (False, 0x02, fragment(b"ab", True, operation=7)),
                                     (True, 0x00, fragment(b"abcd", False)), (True, 0x00, fragment(b"", False)),
                                     (True, 0x02, fragment(b"abcd", False, more=True)), (True, 0x25, fragment(b"abcd", False)[:15])):
            h.fresh()
            asked(h, 0, order)
            if begun:
                h.receive(0, r.fragment(b"\x18\x10", True, True)).gives(0x02)
            h.receive(0, reply).gives(number)


def fragment(chunk, first, more=False, operation=2):
    """A list's fragment with an emergency's service."""
    return r.fragment(chunk, first, more, operation, service=1)
