"""Sequences by chance, from a fixed seed: mostly the call that is due with a reply that fits, so that transfers run through
segments and fragments to their ends, and between them calls of the wrong seat, in the wrong order, with bad buffers or
replies."""
import random

import replies as r
from desk import DOWNLOADS, LISTS, REQUEST, COMPLETE_DOWNLOAD, COMPLETE_UPLOAD, Order
from model import DEFAULT_BUDGET

chance = random.Random(4)
SEQUENCES, CALLS = 130, 48
SIZES = (0, 4, 8, 20, 64, 64, 64, 300, 300, 300, 4096)


def content(most):
    return bytes(chance.randrange(256) for _ in range(chance.randrange(most + 1)))


def order():
    kind = chance.choice((1, 1, 1, 1, 2, 3, 4, 4, 5, 6))
    index = chance.randrange(1, 6) if kind == 4 else chance.choice((0x1018, 0x6060, 0x1008, 0))
    budget = chance.choice((1, 2, 3, 9, DEFAULT_BUDGET, 65535))
    o = Order(kind, chance.choice((0, 1, 2, 255)), index, chance.randrange(2**32), chance.randrange(1, 5), budget)
    if chance.random() < 0.08:
        return o._replace(**chance.choice(({"kind": 0}, {"kind": 7}, {"len": 0}, {"len": 5}, {"budget": 0}, {"index": 6})))
    return o


def fitting(t):
    """A reply that the transfer waits for."""
    o = t.order
    sub = 1 if o.kind in (COMPLETE_UPLOAD, COMPLETE_DOWNLOAD) else o.sub
    if t.segments is not None:
        return r.segment(content(chance.choice((7, 12, 40))), chance.random() < 0.3, chance.randrange(2), chance.random() < 0.7)
    if o.kind in LISTS:
        operation = 2 if chance.random() < 0.8 else chance.randrange(1, 8)
        return r.fragment(content(24), not t.begun, chance.random() < 0.65, operation, chance.randrange(3))
    if o.kind in DOWNLOADS:
        return r.downloaded(o.index, sub)
    return chance.choices((r.segments_follow(o.index, sub, chance.choice((1, 8, 20, 60))), r.normal(o.index, sub, content(40)),
                           r.expedited(o.index, sub, (content(3) + b"e"))), (6, 2, 2))[0]


def emergency():
    """Any, and at times cut."""
    whole = r.emergency(chance.randrange(65536), chance.randrange(256), chance.randbytes(5))
    return whole[:chance.choice((9, 12, 15, 16, 16, 16))]


def odd(t):
    """A reply with something wrong."""
    reply = bytearray(fitting(t))
    if chance.random() < 0.5:
        reply[chance.choice((0, 5, 7, 8, 9))] = chance.randrange(256)
        return bytes(reply)
    return chance.choice((bytes(reply[:chance.randrange(len(reply) + 1)]), content(30), emergency(),
                          r.aborted(t.order.index, t.order.sub, 0x06090011)))


def due(h, head, n):
    if head.due == REQUEST:
        h.send(head.seat)
    else:
        h.receive(head.seat, odd(head) if chance.random() < 0.08 else fitting(head), n[head.seat])


def astray(h, line, n):
    seat = chance.choice((0, 1, 2, 3, 4, 5, 6, 7, 8, 255))
    other = chance.choice(line).seat if line and chance.random() < 0.7 else seat
    what = chance.randrange(6)
    if what == 0:
        h.leave(other)
    elif what == 1:
        h.enter(seat, order())
    elif what == 2:
        h.send(other, chance.choice((0, 15, 16, 17, 40, 1487) if chance.random() < 0.9 else (1486,)))
    elif what == 3 and line:
        h.receive(other, fitting(line[0]), n[other % 8])
    elif what == 4 and line:
        h.receive(line[0].seat, fitting(line[0]), chance.choice(SIZES))
    else:
        h.send(other)


def one(h):
    h.fresh(chance.choice((1, 1, 5, 6, 7)))
    n = [chance.choice(SIZES) for _ in range(8)]
    for _ in range(CALLS):
        line = h.host.desk.line
        if chance.random() < 0.15:
            astray(h, line, n)
        elif not line or chance.random() < 0.12:
            free = [s for s in range(8) if not h.host.desk.at(s)]
            h.enter(chance.choice(free or [0]), order())
        else:
            due(h, line[0], n)
    h.look()


def play(h):
    for _ in range(SEQUENCES):
        one(h)
