"""The eight bytes from byte 8 of a reply on as those of a CAN frame, an SDO reply or an emergency, and the fields of Wireshark's CANopen
dissector."""
import struct

import abort_words
from frame import Frame

NAME = "CANopen"
LINK, OPTIONS, LAYER = 227, ("-d", "can.subdissector,canopen"), "canopen"
SDO_REPLY_OF_NODE_1, EMERGENCY_OF_NODE_1 = 0x581, 0x081
FIRST, BEHIND = 8, 16
SEGMENT, ABORT = 0, 4

# Wireshark's fields by the names of document 01's layouts. A field on neither list fails the comparison.
FIELDS = {
    "sdo.scs": "specifier", "sdo.toggle": "toggle", "sdo.n": "unused", "sdo.c": "last", "sdo.data.bytes": "data",
    "sdo.main_idx": "index", "sdo.sub_idx": "sub-index", "sdo.abort_code": "abort code",
    "em.err_code": "emergency code", "em.err_reg": "register", "em.err_field": "data",
}
# The field whose words, which Wireshark shows beside the number, are compared too.
WORDED = {"sdo.abort_code": "words"}
# The CAN frame's number and its parts; the command byte, whose parts are compared one by one; the register's bits, compared as one.
HOLDERS = {"cob_id", "function_code", "node_id", "sdo.cmd", *(f"em.err_reg_{bit}" for bit in "ge cu vo te co de re ma".split())}
# The rows of docs/DIFFERENCES.md that hold for this dissector too: it names the unused count and shows all seven bytes.
ROWS = {"W9"}


class OnCan(Frame):
    first = FIRST

    def packed(self):
        return self.mailbox[:BEHIND]

    def cob_id(self):
        return EMERGENCY_OF_NODE_1 if "emergency code" in self.asked else SDO_REPLY_OF_NODE_1


def on_the_wire(frame, mailbox):
    return struct.pack(">IB3x", frame.cob_id(), BEHIND - FIRST) + mailbox[FIRST:BEHIND]


def known(parts):
    return {part: value for part, value in parts.items() if part in FIELDS.values()}


def judged(frame):
    """The judge cuts a segment's seven bytes by the unused count, so its chunk tells the count."""
    def ours(ask, mailbox):
        parts = known(frame.ours(ask, mailbox))
        if parts.get("last") is not None:
            parts["unused"] = 7 - len(parts["data"] or b"")
        return parts
    return ours


def on_can(frame):
    asked, otherwise = known(frame.asked), {part: row for part, row in frame.otherwise.items() if row[0] in ROWS}
    if "abort code" in asked:
        asked.update(abort_words.asked(asked["abort code"]))
        otherwise.update(abort_words.otherwise(asked["abort code"]))
    return OnCan(f"{frame.kind}, on CAN", asked, otherwise, mailbox=frame.mailbox, ours=judged(frame))


def is_on_can(frame):
    """A segment of up to seven bytes, an abort or an emergency."""
    kind = frame.asked.get("specifier") in (SEGMENT, ABORT) or "emergency code" in frame.asked
    return frame.ours and kind and len(frame.packed()) == BEHIND


def replies(frames):
    return [on_can(frame) for frame in frames if is_on_can(frame)]
