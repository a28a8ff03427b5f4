"""Frames with one bit changed on the wire: whether the comparison notices, and which bits Wireshark does not look at."""
import comparison


def whole(first, behind):
    return dict.fromkeys(range(first, behind), 0xff)


# The bits that Wireshark 4.0.17 looks at in no frame, and beside them in a kind's first frame: byte -> mask.
NOWHERE_READ = {4: 0xfc, 5: 0x80, 7: 0x0e}
UNREAD = {
    "upload request": {8: 0x0f, **whole(12, 16)},
    "download request of 1": whole(13, 16),
    "download request of 2": whole(14, 16),
    "segment request": {8: 0x0f, **whole(9, 16)},
    "list request": whole(9, 10),
    "expedited upload of 1": whole(13, 16),
    "expedited upload of 2": whole(14, 16),
    "normal upload, no size indicator": whole(16, 21),
    "download reply": {8: 0x1f, **whole(12, 16)},
    "abort as service 2": {8: 0x1f, **whole(9, 12)},
    "abort as service 3": {8: 0x1f, **whole(9, 16)},
    "segment below length 10": whole(8, 10),
    "list": whole(9, 10),
    "list, incomplete": whole(9, 10),
    "list, later fragment": whole(9, 10),
    "list, later fragment, incomplete": whole(9, 10),
    "information error": whole(9, 10),
    "emergency": whole(8, 16),
    "abort as service 2, on CAN": {8: 0x1f},
    "abort as service 3, on CAN": {8: 0x1f},
}


def unread(frame):
    masks = {**NOWHERE_READ, **UNREAD.get(frame.kind, {})}
    return {at: mask for at, mask in masks.items() if at >= frame.first}


def set_but_unread(request):
    """The bytes of a request with a bit set that Wireshark does not look at. Document 01 has zeros there, and behind the frame."""
    masks = {**unread(request), **whole(len(request.packed()), len(request.mailbox))}
    return [at for at, mask in masks.items() if request.mailbox[at] & mask]


def places(frame):
    return [(at, bit) for at in range(frame.first, len(frame.packed())) for bit in range(8)]


def changed(mailbox, at, bit):
    return mailbox[:at] + bytes([mailbox[at] ^ 1 << bit]) + mailbox[at + 1:]


def on_the_wire(reader, frame):
    return [reader.on_the_wire(frame, changed(frame.mailbox, at, bit)) for at, bit in places(frame)]


def before_wireshark(frame, readings, ours):
    """Wireshark reads the changed frames: which changes go unnoticed, and which parts are never read wrongly."""
    unnoticed, wrong = {}, set()
    for (at, bit), read in zip(places(frame), readings):
        parts = {part for part, _ in comparison.complaints(frame, read, ours)}
        wrong |= parts & read.keys()
        if not parts:
            unnoticed[at] = unnoticed.get(at, 0) | 1 << bit
    for at in sorted({*unnoticed, *unread(frame)}):
        silent, listed = unnoticed.get(at, 0), unread(frame).get(at, 0)
        if silent != listed:
            yield f"byte {at}: changes of the bits {silent:#04x} go unnoticed, and tools/wireshark/damaged.py lists {listed:#04x}"
    for part in frame.asked.keys() - wrong:
        if comparison.expected(frame, part, ours) is not None:
            yield f"{part}: no change of a bit made Wireshark read it wrongly"


def before_the_judge(frame, read, ours, ask):
    """The judge reads the changed frames, and Wireshark the right one: which parts are never read wrongly. One bit of a byte is
    enough, but for byte 8, where each is a flag."""
    wrong = set()
    for at, bit in places(frame):
        if at == 8 or bit == 0:
            misread = frame.ours(ask, changed(frame.mailbox, at, bit))
            wrong |= {part for part, _ in comparison.complaints(frame, read, misread) if misread.get(part) is not None}
    for part, value in ours.items():
        if value is not None and part not in wrong:
            yield f"{part}: no change of a bit made the judge read it wrongly"
