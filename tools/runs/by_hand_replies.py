"""Sequences made by hand about lent buffers, replies and budgets: each under the sentence of document 01, or of request [1] of
document 02, that it is about, with the number that every call must give."""
import replies as r
from orders import SERIAL, WRITTEN, counted, down, follow_in_segments, in_segments, listed, sequence, up
from host import FRAMES


@sequence
def frame_buffers(h):
    """16: frame buffer not 16 to 1,486 bytes"""
    h.enter(0, up()).gives(0x01)
    for size in (0, 15, 1487, 2048):
        h.lay(FRAMES, b"\xa5" * 1600)
        h.send(0, size).gives(0x16)
    for size in (16, 17, 1486):
        h.lay(FRAMES, b"\xa5" * 1600)
        h.send(0, size).gives(0x02)
        h.look()
        h.leave(0).gives(0x03)
        h.enter(0, down(value=0xffffffff, length=3)).gives(0x01)


@sequence
def reply_lengths(h):
    """16: reply above 1,486; 20: under 12 bytes"""
    for length, number in ((0, 0x20), (11, 0x20), (12, 0x25), (15, 0x25), (16, 0x00), (1485, 0x00), (1486, 0x00)):
        h.enter(0, up()).gives(0x01)
        h.send(0).gives(0x02)
        h.receive(0, bytes(1487)).gives(0x16)
        h.receive(0, SERIAL[:length].ljust(length, b"\x99")).gives(number)
    for order, reply in ((down(sub=1), r.downloaded(0x6060, 1)), (listed(), r.fragment(b"", False, False, operation=3))):
        h.enter(0, order).gives(0x01)
        h.send(0).gives(0x02)
        h.receive(0, reply[:11]).gives(0x20)


@sequence
def data_buffers(h):
    """16: N above 131,070; 24: complete size above N"""
    for n, size, number in ((0, 0, 0x00), (0, 1, 0x24), (64, 65, 0x24), (64, 64, 0x01),
                            (131070, 131071, 0x24), (131070, 131070, 0x01)):
        h.enter(0, up()).gives(0x01)
        h.send(0).gives(0x02)
        h.receive(0, SERIAL, 131071).gives(0x16)
        h.receive(0, SERIAL, 131072).gives(0x16)
        h.receive(0, r.segments_follow(0x1018, 1, size), n).gives(number)
        if number == 0x01:
            h.send(0).gives(0x02)
            h.receive(0, r.segment(b"x" * 30, True), n).gives(0x00)
    for n in (131070, 4, 3, 1, 0):
        h.enter(0, up()).gives(0x01)
        h.send(0).gives(0x02)
        h.receive(0, SERIAL, n).gives(0x00)
    h.enter(0, down()).gives(0x01)
    h.send(0).gives(0x02)
    h.receive(0, WRITTEN, 131071).gives(0x16)
    h.receive(0, WRITTEN, 0).gives(0x00)


@sequence
def over(h):
    """transfer over, buffers unchanged by this call, also for all 2x"""
    for number, reply in ((0x20, b""), (0x20, SERIAL[:5] + b"\x16" + SERIAL[6:]), (0x21, r.emergency(0x8130, 0x11)),
                          (0x22, r.aborted(0x1018, 1, 0x06020000)), (0x22, r.aborted(0x9999, 5, 1)),
                          (0x23, r.expedited(0x1018, 2, b"abcd")), (0x23, r.expedited(0x1019, 1, b"abcd")),
                          (0x23, r.expedited(0x1018, 1, b"abcd", mailbox_type=4)), (0x24, r.normal(0x1018, 1, bytes(65))),
                          (0x25, SERIAL[:15]), (0x25, r.normal(0x1018, 1, b"abcdef")[:-1])):
        h.enter(6, up()).gives(0x01)
        h.enter(5, down()).gives(0x01)
        h.send(6).gives(0x02)
        h.receive(6, reply).gives(number)
        h.receive(6, SERIAL).gives(0x12)
        h.send(5).gives(0x02)
        h.receive(5, WRITTEN).gives(0x00)


@sequence
def over_within_segments(h):
    """It must be there, and the earlier chunks plus it be at most this call's N, else 25."""
    short = r.header(2, 3) + bytes(12)
    eight = r.segment(b"abcdefgh", False)
    for number, reply, n in ((0x26, short, 64), (0x25, eight[:-1], 64), (0x25, eight, 14),
                             (0x00, r.segment(b"abcdefgh", True), 15), (0x21, r.emergency(1, 2), 64),
                             (0x22, r.aborted(0, 0, 5), 64),
                             (0x25, r.segment(b"", True), 6), (0x00, r.segment(b"", True), 7), (0x20, b"\x0a", 64)):
        in_segments(h, 4)
        h.send(4).gives(0x02)
        h.receive(4, r.segment(b"1234567", False)).gives(0x01)
        h.send(4).gives(0x02)
        h.receive(4, reply, n).gives(number)
        h.send(4).gives(0x12)


@sequence
def short_segments(h):
    """let a segment reply of 9 to 11 bytes be judged too: 20 now starts below 9 bytes there, and a segment abort still needs 16"""
    two = r.segment(b"ab", True)
    abort = r.aborted(0x1018, 1, 0x06020000)
    for number, reply in ((0x20, two[:8]), (0x00, r.segment(b"", True, padded=False)), (0x00, r.segment(b"", True)[:9]),
                          (0x01, r.segment(b"", False, padded=False)), (0x25, two[:10]), (0x00, two[:11]), (0x00, two),
                          (0x00, r.segment(b"ab", True, padded=False)), (0x25, r.segment(b"ab", True, padded=False)[:10]),
                          (0x26, r.header(2, 3) + b"\x01"), (0x23, r.header(3, 3, mailbox_type=4) + b"\x01"),
                          (0x20, r.header(3, 3, mailbox_type=6) + b"\x01"), (0x20, r.header(3, 9) + b"\x01"),
                          (0x20, r.header(3, 3) + b"\xa1"),
                          (0x20, abort[:9]), (0x20, abort[:11]), (0x20, abort[:15]), (0x22, abort)):
        h.fresh()
        in_segments(h, 4)
        h.send(4).gives(0x02)
        h.receive(4, reply).gives(number)


@sequence
def drive_name(h):
    """By ETG.1000.6 a segment reply's data begin at byte 9."""
    name = b"AX5112 servo drive"
    h.enter(0, up(0x1008, 0)).gives(0x01)
    h.send(0).gives(0x02)
    h.receive(0, r.segments_follow(0x1008, 0, len(name))).gives(0x01)
    for toggle, at in ((0, 0), (1, 7), (0, 14)):
        h.send(0).gives(0x02)
        h.receive(0, r.segment(name[at:at + 7], at == 14, toggle)).gives(0x00 if at == 14 else 0x01)


@sequence
def chunks(h):
    """Each call writes only its own chunk, at the sum of the earlier ones. After the last, P is the sum of chunks."""
    in_segments(h, 2, 64)
    for place, chunk in enumerate((b"abc", b"", b"0123456", b"01234567", b"Z")):
        h.send(2).gives(0x02)
        h.send(2).gives(0x14)
        h.receive(2, r.segment(chunk, place == 4, place % 2)).gives(0x00 if place == 4 else 0x01)
    for padded in (True, False):
        in_segments(h, 2, 64)
        h.send(2).gives(0x02)
        h.receive(2, r.segment(b"12345", True, padded=padded)).gives(0x00)
    h.look()


@sequence
def fragments(h):
    """Information replies: one request, many replies. Operation other than 2: reply due, nothing stored."""
    for order in (listed(3), counted()):
        h.enter(1, order).gives(0x01)
        h.send(1).gives(0x02)
        h.receive(1, r.fragment(b"nothing of it", True, True, operation=7)).gives(0x02)
        h.receive(1, r.fragment(b"\x00\x10\x18\x10", True, True, left=2)).gives(0x02)
        h.send(1).gives(0x14)
        h.receive(1, r.fragment(b"", False, True, left=1)).gives(0x02)
        h.receive(1, r.fragment(b"\x60\x60ab", False, False)).gives(0x00)
    for number, reply in ((0x26, r.header(7, 8) + bytes([2]) + bytes(20)), (0x25, r.fragment(b"abcd", True, False)[:-1]),
                          (0x20, r.aborted(0, 0, 1)), (0x25, r.fragment(bytes(65), True, True))):
        h.enter(1, listed()).gives(0x01)
        h.send(1).gives(0x02)
        h.receive(1, reply).gives(number)
        h.send(1).gives(0x12)


@sequence
def budgets(h):
    """When the count reaches the budget and the answer would be 01 or 02, it is 27 and the chunk is not stored."""
    follow = r.segments_follow(0x1018, 1, 9)
    for budget, reply, number in ((1, SERIAL, 0x00), (1, follow, 0x27), (1, b"", 0x20), (1, r.emergency(1, 1), 0x21),
                                  (2, follow, 0x01)):
        h.enter(0, up(budget=budget)).gives(0x01)
        h.send(0).gives(0x02)
        h.receive(0, bytes(1487)).gives(0x16)
        h.receive(0, reply).gives(number)
    h.send(0).gives(0x02)
    h.receive(0, r.segment(b"not last", False)).gives(0x27)
    for last, number in ((True, 0x00), (False, 0x27)):
        in_segments(h, 0, budget=3)
        h.send(0).gives(0x02)
        h.receive(0, r.segment(b"first", False)).gives(0x01)
        h.send(0).gives(0x02)
        h.receive(0, r.segment(b"SECOND", last)).gives(number)
        h.send(0).gives(0x12)
    for budget in (1, 2, 3):
        h.enter(7, listed(budget=budget)).gives(0x01)
        h.send(7).gives(0x02)
        for _ in range(budget - 1):
            h.receive(7, r.fragment(b"", True, True, operation=5)).gives(0x02)
        h.receive(7, r.fragment(b"left out", True, True)).gives(0x27)
    h.enter(7, down(budget=1)).gives(0x01)
    h.send(7).gives(0x02)
    h.receive(7, WRITTEN).gives(0x00)


@sequence
def incident(h):
    """Errors that look right: handing the mailbox on between segments."""
    h.enter(0, up()).gives(0x01)
    h.enter(1, up(0x1008, 0)).gives(0x01)
    follow_in_segments(h, 0)
    h.send(1).gives(0x13)
    h.send(0).gives(0x02)
    h.receive(1, r.segment(b"task 0 ", False)).gives(0x13)
    h.receive(0, r.segment(b"task 0 ", False)).gives(0x01)
    h.send(1).gives(0x13)
    h.receive(1, r.segment(b"is done", True)).gives(0x13)
    h.send(0).gives(0x02)
    h.receive(0, r.segment(b"is done", True, 1)).gives(0x00)
    h.send(1).gives(0x02)
    h.receive(0, r.expedited(0x1008, 0, b"name")).gives(0x12)
    h.receive(1, r.expedited(0x1008, 0, b"name")).gives(0x00)
