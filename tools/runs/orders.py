"""Orders, and the beginnings of sequences made by hand, which `sequence` gathers in the order in which they are written."""
import replies as r
from desk import DOWNLOAD, OBJECT_LIST, QUANTITIES, UPLOAD, Order
from model import DEFAULT_BUDGET

SEQUENCES = []


def sequence(made):
    SEQUENCES.append(made)
    return made


def up(index=0x1018, sub=1, budget=DEFAULT_BUDGET):
    return Order(UPLOAD, sub, index, 0, 0, budget)


def down(index=0x6060, sub=0, value=8, length=1, budget=DEFAULT_BUDGET, kind=DOWNLOAD):
    return Order(kind, sub, index, value, length, budget)


def listed(kind=1, budget=DEFAULT_BUDGET):
    return Order(OBJECT_LIST, 0, kind, 0, 0, budget)


def counted(budget=DEFAULT_BUDGET):
    return Order(QUANTITIES, 0, 0, 0, 0, budget)


SERIAL = r.expedited(0x1018, 1, b"\x78\x56\x34\x12")
WRITTEN = r.downloaded(0x6060, 0)


def in_segments(h, seat, size=20, **order):
    """An upload in segments up to its first segment's request, which is due."""
    h.enter(seat, up(**order)).gives(0x01)
    follow_in_segments(h, seat, size)


def follow_in_segments(h, seat, size=20):
    h.send(seat).gives(0x02)
    h.receive(seat, r.segments_follow(0x1018, 1, size)).gives(0x01)


def asked(h, seat, order):
    """The transfer up to its first request, which was sent."""
    h.enter(seat, order).gives(0x01)
    h.send(seat).gives(0x02)


def asked_for_a_segment(h, seat, earlier):
    """An upload in segments up to a request that was sent, with as many segments before it."""
    in_segments(h, seat)
    h.send(seat).gives(0x02)
    for toggle in range(earlier):
        h.receive(seat, r.segment(b"1234567", False, toggle % 2)).gives(0x01)
        h.send(seat).gives(0x02)
