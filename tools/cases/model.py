"""Document 01's rules in Python, with requests [1] and [5] of document 02: request frames, the judgement of one reply, reads, the
order program.

What the project's cases expect is computed here. The judgement is that of the model with which vectors.tsv was made, so
that its agreement with that table is no second opinion; the second opinion is the Rust's, in the rows tagged R. The Rust takes a
segment's data from byte 12, and was given them there: tools/cases/make says how."""
import collections

TYPES = {0, 1, 2, 3, 4, 5, 15}
SERVICES = set(range(1, 9))
SPECIFIERS = {0, 1, 2, 3, 4}
OPERATIONS = set(range(1, 8))
# "Under 12 bytes"; of a segment reply "20 now starts below 9 bytes there"
LEAST, SEGMENT_LEAST = 12, 9
# "By ETG.1000.6 a segment reply's data begin at byte 9."
SEGMENT_DATA = 9
# "An emergency under 16 bytes is 20"; "In ETG.1000.6 the error code follows the CoE header: bytes 8-9, register 10, five data bytes."
EMERGENCY_LEAST, ABORT_LEAST = 16, 16
ERROR_CODE, ERROR_REGISTER, ERROR_DATA = 8, 10, slice(11, 16)


def word(b, at):
    return int.from_bytes(b[at:at + 2], "little")


def long(b, at):
    return int.from_bytes(b[at:at + 4], "little")


# ---- requests: the bytes that each packs

def head(length, counter, service):
    return bytes([length, 0, 0, 0, 0, 3 | (counter & 7) << 4, 0, service << 4])


def upload(counter, index, sub, complete):
    sub = 1 if complete else sub
    return head(10, counter, 2) + bytes([complete << 4 | 2 << 5, index & 255, index >> 8, sub])


def download(counter, index, sub, complete, data):
    sub = 1 if complete else sub
    first = 3 | (4 - len(data)) << 2 | complete << 4 | 1 << 5
    return head(10, counter, 2) + bytes([first, index & 255, index >> 8, sub]) + data.ljust(4, b"\0")


def segment(counter, toggle):
    return head(10, counter, 2) + bytes([toggle << 4 | 3 << 5])


def object_list(counter, kind):
    return head(8, counter, 8) + bytes([1, 0, 0, 0, kind & 255, kind >> 8])


def written(good, size, frame):
    """The number of a writer, and the buffer's new bytes or None: 15 before 16."""
    if not good:
        return 0x15, None
    if not 16 <= size <= 1486:
        return 0x16, None
    return 0x02, frame.ljust(size, b"\0")


# ---- one reply: (number, values, chunk or None)

Values = collections.namedtuple("Values", "sub index code data", defaults=(0, 0, 0, 0))
NONE = Values()
UNDECODABLE = 0x20, NONE, None


def emergency(r):
    """The register stands in `sub`, and the five bytes are one number, the first of them lowest."""
    if len(r) < EMERGENCY_LEAST:
        return UNDECODABLE
    data = int.from_bytes(r[ERROR_DATA], "little")
    return 0x21, Values(sub=r[ERROR_REGISTER], code=word(r, ERROR_CODE), data=data), None


def abort(r):
    if len(r) < ABORT_LEAST:
        return UNDECODABLE
    return 0x22, Values(sub=r[11], index=word(r, 9), code=long(r, 12)), None


def decodable(r, least):
    return len(r) >= least and r[5] & 15 in TYPES and r[7] >> 4 in SERVICES


def sdo_reply(r, least, index, sub, rest):
    if not decodable(r, least):
        return UNDECODABLE
    # "the header reading must not judge byte 8 when the service is 1"
    if r[7] >> 4 == 1:
        return emergency(r)
    if r[8] >> 5 not in SPECIFIERS:
        return UNDECODABLE
    if r[8] >> 5 == 4:
        return abort(r)
    if r[5] & 15 != 3 or index is not None and (word(r, 9) != index or r[11] != sub):
        return 0x23, NONE, None
    return rest(r)


def download_reply(r, index, sub):
    return sdo_reply(r, LEAST, index, sub, lambda r: UNDECODABLE if len(r) < 16 else (0x00, NONE, b""))


def upload_reply(r, index, sub, n):
    def rest(r):
        if r[8] & 2:
            p = 4 - (r[8] >> 2 & 3)
            return (0x25, NONE, None) if 12 + p > len(r) else (0x00, NONE, r[12:12 + p])
        if len(r) < 16:
            return UNDECODABLE
        if long(r, 12) > n:
            return 0x24, NONE, None
        d = max(word(r, 0) - 10, 0)
        if long(r, 12) <= d:
            return (0x25, NONE, None) if 16 + d > len(r) else (0x00, NONE, r[16:16 + d])
        return 0x01, NONE, None
    return sdo_reply(r, LEAST, index, sub, rest)


def segment_reply(r, earlier, n):
    def rest(r):
        if word(r, 0) < 3:
            return 0x26, NONE, None
        c = word(r, 0) - 3
        if c == 7:
            c -= r[8] >> 1 & 7
        if SEGMENT_DATA + c > len(r) or earlier + c > n:
            return 0x25, NONE, None
        return (0x00 if r[8] & 1 else 0x01), NONE, r[SEGMENT_DATA:SEGMENT_DATA + c]
    return sdo_reply(r, SEGMENT_LEAST, None, None, rest)


def list_reply(r, begun, earlier, n):
    # "Information replies stay as they are", also those of service 1
    if not (decodable(r, LEAST) and r[8] & 127 in OPERATIONS):
        return UNDECODABLE
    if r[8] & 127 != 2:
        return 0x02, NONE, None
    if word(r, 0) < 8:
        return 0x26, NONE, None
    c = word(r, 0) - 8
    at = 12 if begun else 14
    if c > 0 and at + c > len(r) or earlier + c > n:
        return 0x25, NONE, None
    return (0x02 if r[8] & 128 else 0x00), NONE, r[at:at + c]


# ---- reads of a finished payload

def typed(payload, width, signed):
    """The value as 32 bits, or None."""
    if len(payload) < width:
        return None
    return int.from_bytes(payload[:width], "little", signed=signed) & 0xffffffff


def item(payload, at):
    if len(payload) % 2 or len(payload) - at < 2:
        return None
    return word(payload, at), at + 2


def whole_list(payload, items):
    """How many indices the payload has, or None, and what the items hold afterwards: the indices as far as there is room."""
    if len(payload) % 2:
        return None, items
    indices = [word(payload, at) for at in range(0, len(payload), 2)]
    return len(indices), indices[:len(items)] + items[len(indices):]


def quantities(payload):
    return None if len(payload) < 10 else [word(payload, i) for i in range(0, 10, 2)]


# ---- the order program: what it prints for a text

LONGEST, SPACE = 1486, 4096
# document 02, [12]: "The default in the programs and in the linked functions that name no budget becomes 1,024."
DEFAULT_BUDGET = 1024
DIGITS = set(b"0123456789abcdef")


def frame_in(line):
    """The bytes of a line, or None where it is bad."""
    if set(line) - DIGITS or len(line) % 2 or len(line) // 2 > LONGEST:
        return None
    return bytes.fromhex(line.decode())


class Order:
    """One transfer alone, from its entry on: the request that is due, and the judgement of its replies."""

    def __init__(self, entry):
        form, size = entry[:1].hex(), len(entry)
        self.form, self.index, self.sub, self.data = form, word(entry, 1), 1, b""
        good = {"01": size == 4, "02": size == 3, "03": 5 <= size <= 8, "04": size == 2 and 1 <= entry[1] <= 5, "05": size == 1}
        if not good.get(form, False):
            raise ValueError("no entry")
        if form in ("01", "03"):
            self.sub, self.data = entry[3], entry[4:]
        self.kind = entry[1] if form == "04" else 0
        self.counter, self.toggle, self.left, self.payload = 1, 0, DEFAULT_BUDGET, b""
        self.segments = self.begun = False

    def request(self):
        counter, self.counter = self.counter, self.counter % 7 + 1
        if self.segments:
            frame = segment(counter, self.toggle)
            self.toggle ^= 1
        elif self.form in ("04", "05"):
            frame = object_list(counter, self.kind)
        elif self.form == "03":
            frame = download(counter, self.index, self.sub, 0, self.data)
        else:
            frame = upload(counter, self.index, self.sub, int(self.form == "02"))
        return frame.ljust(16, b"\0").hex()

    def judge(self, reply):
        if self.form in ("04", "05"):
            number, _, chunk = list_reply(reply, self.begun, len(self.payload), SPACE)
        elif self.form == "03":
            number, _, chunk = download_reply(reply, self.index, self.sub)
        elif self.segments:
            number, _, chunk = segment_reply(reply, len(self.payload), SPACE)
        else:
            number, _, chunk = upload_reply(reply, self.index, self.sub, SPACE)
        self.left -= 1
        if self.left == 0 and number in (0x01, 0x02):
            return 0x27
        self.segments = self.segments or number == 0x01
        self.begun = self.begun or chunk is not None
        self.payload += chunk or b""
        return number


def printed(text):
    """The text that the order program prints for a text, both bytes."""
    lines = text.split(b"\n")
    if not lines[-1]:
        lines.pop()
    out = []
    try:
        order = Order(frame_in(lines[0]) if lines and frame_in(lines[0]) is not None else b"")
        out.append(order.request())
        for line in lines[1:]:
            reply = frame_in(line)
            if reply is None:
                raise ValueError("no frame")
            number = order.judge(reply)
            if number == 0x01:
                out.append(order.request())
            elif number != 0x02:
                out.append(f"{number:02x}" + (order.payload[:SPACE].hex() if number == 0x00 else ""))
                break
        else:
            out.append("03")
    except ValueError:
        out.append("ff")
    return "".join(line + "\n" for line in out).encode()
