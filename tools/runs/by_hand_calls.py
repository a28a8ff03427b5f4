"""Sequences made by hand about the calls and the order of refusals: each under the sentence of document 01 that it is about, with
the number that every call must give."""
import replies as r
from desk import COMPLETE_DOWNLOAD, COMPLETE_UPLOAD, Order
from orders import SERIAL, WRITTEN, counted, down, in_segments, listed, sequence, up


@sequence
def whole(h):
    """A transfer is one entry; its seat is free again when it ends."""
    for kind, order, reply in (("upload", up(), SERIAL), ("download", down(), WRITTEN),
                               ("complete upload", Order(COMPLETE_UPLOAD, 7, 0x1018, 0, 0, 9), r.normal(0x1018, 1, b"abcdef")),
                               ("complete download", down(kind=COMPLETE_DOWNLOAD, sub=7), r.downloaded(0x6060, 1)),
                               ("list", listed(5), r.fragment(b"\x00\x10\x18\x10", True, False)),
                               ("quantities", counted(9), r.fragment(bytes(range(10)), True, False))):
        h.enter(3, order).gives(0x01)
        h.enter(3, order).gives(0x11)
        h.send(3).gives(0x02)
        h.receive(3, reply).gives(0x00)
        h.send(3).gives(0x12)
        h.leave(3).gives(0x12)


@sequence
def end_of_the_line(h):
    """enter: joins the end of the line. Accepted, it answers 01 at any place in line."""
    for seat in (5, 2, 7, 0, 3, 6, 1, 4):
        h.enter(seat, down(value=seat)).gives(0x01)
    for seat in range(8):
        h.enter(seat, down()).gives(0x11)
    h.enter(8, down()).gives(0x10)
    waiting = [5, 2, 7, 0, 3, 6, 1, 4]
    while waiting:
        seat = waiting.pop(0)
        for other in range(8):
            if other != seat:
                h.send(other).gives(0x13 if other in waiting else 0x12)
        h.send(seat).gives(0x02)
        h.receive(seat, WRITTEN).gives(0x00)


@sequence
def eighth_frame(h):
    """A fresh desk sends 1; 7 is followed by 1."""
    h.enter(0, listed()).gives(0x01)
    h.leave(0).gives(0x03)
    for _ in range(9):
        h.enter(0, down()).gives(0x01)
        h.send(0).gives(0x02)
        h.leave(0).gives(0x03)


@sequence
def begun_at_another_counter(h):
    """A fresh desk sends 1; 7 is followed by 1."""
    for counter in (7, 0, 8, 255, 3, 6):
        h.fresh(counter)
        in_segments(h, 0)
        h.send(0).gives(0x02)
        h.receive(0, r.segment(b"abc", True)).gives(0x00)


@sequence
def leaves(h):
    """leave: takes the transfer out, anywhere in the line."""
    for gone in ((0, 1), (1, 2), (3, 0), (2, 1), (0, 3)):
        h.fresh(5)
        for seat in range(4):
            h.enter(seat, down(value=seat)).gives(0x01)
        for seat in gone:
            h.leave(seat).gives(0x03)
            h.leave(seat).gives(0x12)
        h.enter(gone[0], up()).gives(0x01)
        for seat in [s for s in range(4) if s not in gone]:
            h.send(seat).gives(0x02)
            h.receive(seat, WRITTEN).gives(0x00)
        h.send(gone[0]).gives(0x02)


@sequence
def reply_under_way(h):
    """A reply still under way is then the host's to read off."""
    for stage in range(3):
        h.fresh(2)
        in_segments(h, 0)
        h.enter(1, down()).gives(0x01)
        if stage > 0:
            h.send(0).gives(0x02)
        if stage > 1:
            h.receive(0, r.segment(b"1234567", False)).gives(0x01)
            h.send(0).gives(0x02)
        h.leave(0).gives(0x03)
        h.receive(0, SERIAL).gives(0x12)
        h.receive(1, WRITTEN).gives(0x14)
        h.send(1).gives(0x02)
        h.enter(0, up()).gives(0x01)
        h.receive(1, WRITTEN).gives(0x00)
        h.send(0).gives(0x02)
        h.receive(0, SERIAL).gives(0x00)


@sequence
def entries_refused(h):
    """15: entry: data length not 1-4, list kind not 1-5, budget 0. Order: enter 10, 11, 15"""
    bad = [down(length=0), down(length=5), down(length=255, kind=COMPLETE_DOWNLOAD), listed(0), listed(6), listed(65535),
           up(budget=0), down(budget=0), listed(budget=0), Order(0, 0, 1, 0, 1, 1), Order(7, 0, 1, 0, 1, 1)]
    for order in bad:
        h.enter(0, order).gives(0x15)
        h.enter(8, order).gives(0x10)
    h.enter(0, up(budget=1)).gives(0x01)
    for order in bad:
        h.enter(0, order).gives(0x11)
        h.enter(7, order).gives(0x15)
    for seat, order in enumerate([down(length=1), down(length=4, value=0x12345678), listed(1), listed(5), up()], 1):
        h.enter(seat, order).gives(0x01)


@sequence
def order_of_refusals(h):
    """send and receive 10, 12, 13, 14, 16; leave 10, 12"""
    long = bytes(1487)
    for seat in (8, 255):
        h.send(seat, 15).gives(0x10)
        h.receive(seat, long, 131071).gives(0x10)
        h.leave(seat).gives(0x10)
    h.send(0, 15).gives(0x12)
    h.receive(0, long).gives(0x12)
    h.enter(1, up()).gives(0x01)
    h.enter(2, up()).gives(0x01)
    h.send(0, 15).gives(0x12)
    h.receive(0, SERIAL).gives(0x12)
    h.send(2, 15).gives(0x13)
    h.send(2).gives(0x13)
    h.receive(2, long).gives(0x13)
    h.receive(2, SERIAL).gives(0x13)
    h.receive(1, long).gives(0x14)
    h.receive(1, SERIAL, 131071).gives(0x14)
    h.receive(1, SERIAL).gives(0x14)
    h.send(1, 15).gives(0x16)
    h.send(1).gives(0x02)
    h.send(1, 15).gives(0x14)
    h.send(1).gives(0x14)
    h.send(2).gives(0x13)
    h.receive(2, SERIAL).gives(0x13)
    h.receive(1, long).gives(0x16)
    h.receive(1, SERIAL, 131071).gives(0x16)
    h.receive(1, SERIAL).gives(0x00)
    h.receive(1, SERIAL).gives(0x12)
    h.receive(2, SERIAL).gives(0x14)
