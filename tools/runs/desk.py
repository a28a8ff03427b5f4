"""Document 01's desk in Python: the transfers in order of entry, the counter of the next frame, and what is due of each.

The document's sentences stand above what they ask for; what they leave open is as docs/DECISIONS.md has it. A reply is judged by
tools/cases/model.py. An answer's data are an emergency's five bytes as one number, the first of them lowest, and 0 beside others."""
import collections

import model as m

UPLOAD, COMPLETE_UPLOAD, DOWNLOAD, OBJECT_LIST, QUANTITIES, COMPLETE_DOWNLOAD = range(1, 7)
DOWNLOADS, LISTS = (DOWNLOAD, COMPLETE_DOWNLOAD), (OBJECT_LIST, QUANTITIES)
REQUEST, REPLY = "request", "reply"

Order = collections.namedtuple("Order", "kind sub index value len budget")
Answer = collections.namedtuple("Answer", "number sub index code length data", defaults=(0, 0, 0, 0, 0))


class Transfer:
    def __init__(self, seat, order):
        self.seat, self.order = seat, order
        self.due = REQUEST
        self.segments = None  # how many segments were asked for, once segments follow
        self.begun = False  # a list's first fragment has come
        self.sum = 0  # of the chunks so far
        self.judged = 0

    def request(self, counter):
        o = self.order
        if self.segments is not None:
            # "the first request with toggle 0, then alternating"
            return m.segment(counter, self.segments % 2)
        if o.kind in LISTS:
            return m.object_list(counter, o.index if o.kind == OBJECT_LIST else 0)
        if o.kind in DOWNLOADS:
            return m.download(counter, o.index, o.sub, o.kind == COMPLETE_DOWNLOAD, o.value.to_bytes(4, "little")[:o.len])
        return m.upload(counter, o.index, o.sub, o.kind == COMPLETE_UPLOAD)

    def verdict(self, reply, n):
        o = self.order
        sub = 1 if o.kind in (COMPLETE_UPLOAD, COMPLETE_DOWNLOAD) else o.sub
        if self.segments is not None:
            return m.segment_reply(reply, self.sum, n)
        if o.kind in LISTS:
            return m.list_reply(reply, self.begun, self.sum, n)
        if o.kind in DOWNLOADS:
            return m.download_reply(reply, o.index, sub)
        return m.upload_reply(reply, o.index, sub, n)

    def store(self, chunk, buffer):
        # "Each call writes only its own chunk, at the sum of the earlier ones."
        at = self.sum
        part = chunk[:max(len(buffer) - at, 0)]
        buffer[at:at + len(part)] = part
        self.sum += len(chunk)
        self.begun = True


def unfit(o):
    # "entry: data length not 1-4, list kind not 1-5, budget 0"
    return (o.budget == 0 or not UPLOAD <= o.kind <= COMPLETE_DOWNLOAD
            or o.kind in DOWNLOADS and not 1 <= o.len <= 4 or o.kind == OBJECT_LIST and not 1 <= o.index <= 5)


class Desk:
    def __init__(self, counter=1):
        self.line = []
        self.counter = counter if 1 <= counter <= 7 else 1

    def at(self, seat):
        return next((t for t in self.line if t.seat == seat), None)

    # "Order: enter 10, 11, 15; send and receive 10, 12, 13, 14, 16; leave 10, 12."

    def enter(self, seat, order):
        if seat > 7:
            return Answer(0x10)
        if self.at(seat):
            return Answer(0x11)
        if unfit(order):
            return Answer(0x15)
        # "joins the end of the line"
        self.line.append(Transfer(seat, order))
        return Answer(0x01)

    def refusal(self, seat, due, fits):
        if seat > 7:
            return 0x10
        if not self.at(seat):
            return 0x12
        if self.at(seat) is not self.line[0]:
            return 0x13
        if self.at(seat).due != due:
            return 0x14
        return None if fits else 0x16

    def send(self, seat, frame):
        refusal = self.refusal(seat, REQUEST, 16 <= len(frame) <= 1486)
        if refusal:
            return Answer(refusal)
        t = self.at(seat)
        # "A frame stands at the front of the lent buffer; zeros fill the rest."
        frame[:] = t.request(self.counter).ljust(len(frame), b"\0")
        t.due = REPLY
        if t.segments is not None:
            t.segments += 1
        # "7 is followed by 1"
        self.counter = self.counter % 7 + 1
        return Answer(0x02)

    def receive(self, seat, reply, buffer):
        refusal = self.refusal(seat, REPLY, len(reply) <= 1486 and len(buffer) <= 131070)
        if refusal:
            return Answer(refusal)
        t = self.at(seat)
        number, values, chunk = t.verdict(reply, len(buffer))
        # "Every judged reply counts one against the budget. When the count reaches the budget and the answer would be 01 or 02,
        # it is 27 and the chunk is not stored."
        t.judged += 1
        if number in (0x01, 0x02) and t.judged >= t.order.budget:
            number, chunk = 0x27, None
        if chunk is not None:
            t.store(chunk, buffer)
        if number == 0x01:
            t.due = REQUEST
            t.segments = t.segments or 0
        elif number != 0x02:
            # "transfer over", "seat free"
            self.line.remove(t)
        return Answer(number, values.sub, values.index, values.code, t.sum if number == 0x00 else 0, values.data)

    def leave(self, seat):
        if seat > 7:
            return Answer(0x10)
        if not self.at(seat):
            return Answer(0x12)
        # "takes the transfer out, anywhere in the line"
        self.line.remove(self.at(seat))
        return Answer(0x03)
