"""Sequences made by hand about the default budget: each under the words of request [12] of document 02 that it is about, with the number
that every call must give."""
import replies as r
from orders import asked, in_segments, listed, sequence
from stored import le


def empty_segments(h, seat, count):
    """So many requests for a segment, each answered by an empty one that is not the last."""
    for place in range(count):
        h.send(seat).gives(0x02)
        h.receive(seat, r.segment(b"", False, place % 2, padded=False)).gives(0x01)


def within_1024_replies(h, last, number):
    """The first reply, 1,022 empty segments, and the 1,023rd."""
    in_segments(h, 0)
    empty_segments(h, 0, 1022)
    h.send(0).gives(0x02)
    h.receive(0, r.segment(b"", last, 0, padded=False)).gives(number)
    h.leave(0).gives(0x12)


@sequence
def faulty_drive(h):
    """A faulty drive kept a program busy through 65,535 replies. The default becomes 1,024."""
    within_1024_replies(h, False, 0x27)


@sequence
def last_of_1024(h):
    """The default becomes 1,024: the 1,024th reply ends a transfer well, where it is the last segment."""
    within_1024_replies(h, True, 0x00)


@sequence
def small_mailbox(h):
    """Callers that fetch the full object list through a small mailbox now pass 65,535 themselves."""
    # a mailbox of 16 bytes has room for one index in a fragment
    asked(h, 0, listed(budget=65535))
    for place in range(1025):
        left = 1024 - place
        h.receive(0, r.fragment(le(0x1000 + place, 2), place == 0, left > 0, left=left), 4096).gives(0x02 if left else 0x00)
