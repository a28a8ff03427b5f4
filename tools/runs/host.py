"""The program `runs` in Python: its memory, a desk, and for each call the line that it prints."""
import desk as true
from stored import check, le

MEMORY = 135168
FRAMES = 131072  # behind the greatest data buffer
FRESH, ENTER, SEND, RECEIVE, LEAVE, LAY, LOOK = range(1, 8)


def number(b, at, width=4):
    return int.from_bytes(b[at:at + width], "little")


class Host:
    def __init__(self, rules=true):
        self.rules, self.desk, self.memory = rules, rules.Desk(), bytearray(MEMORY)

    def told(self, a):
        return (f"{a.number:02x} {a.sub:02x} {a.index:04x} {a.code:08x} {a.length:08x} {a.data:010x}"
                f" {self.desk.counter:02x} {len(self.desk.line):02x}")

    def lent(self, call, use):
        """What `use` makes of the part of memory that a call names, and that part afterwards."""
        start, end = number(call, 2), number(call, 2) + number(call, 6)
        part = self.memory[start:end]
        answer = use(part)
        self.memory[start:end] = part
        return self.told(answer), part

    def outcome(self, call):
        op, seat = call[0], call[1] if len(call) > 1 else 0
        if op == FRESH:
            self.desk = self.rules.Desk(seat)
            return f"fresh {self.desk.counter:02x} 00"
        if op == ENTER:
            order = self.rules.Order(call[2], call[3], number(call, 4, 2), number(call, 6), call[10], number(call, 11, 2))
            return self.told(self.desk.enter(seat, order))
        if op == SEND:
            text, part = self.lent(call, lambda frame: self.desk.send(seat, frame))
            return f"{text} {part.hex()}"
        if op == RECEIVE:
            text, part = self.lent(call, lambda buffer: self.desk.receive(seat, call[10:], buffer))
            return f"{text} {part[:32].hex()} {check(part):04x}"
        if op == LEAVE:
            return self.told(self.desk.leave(seat))
        if op == LAY:
            self.memory[number(call, 1):number(call, 1) + len(call) - 5] = call[5:]
            return "laid"
        return f"memory {self.memory[:32].hex()} {check(self.memory):04x}"


class Recorder:
    """Makes calls at a host and keeps them: `calls` has a note or the bytes of a call, `outcomes` a line for each call."""

    def __init__(self):
        self.host, self.calls, self.outcomes = Host(), [], []

    def note(self, text):
        self.calls.append(text)

    def call(self, *parts):
        call = b"".join(bytes([p]) if isinstance(p, int) else p for p in parts)
        self.calls.append(call)
        self.outcomes.append(self.host.outcome(call))
        return self

    def gives(self, wanted, values=""):
        if not self.outcomes[-1].startswith(f"{wanted:02x} {values}"):
            raise SystemExit(f"tools/runs: the model disagrees with a sequence made by hand, which wants {wanted:02x} {values}:\n"
                             f"  call    {self.calls[-1].hex()}\n  outcome {self.outcomes[-1]}")
        return self

    def fresh(self, counter=1):
        return self.call(FRESH, counter)

    def enter(self, seat, o):
        return self.call(ENTER, seat, o.kind, o.sub, le(o.index, 2), le(o.value, 4), o.len, le(o.budget, 2))

    def send(self, seat, size=16):
        return self.call(SEND, seat, le(FRAMES, 4), le(size, 4))

    def receive(self, seat, reply, n=64, at=None):
        """Each seat has 16,384 bytes of its own; a greater buffer begins at 0."""
        start = at if at is not None else seat % 8 * 16384 if n <= 16384 else 0
        return self.call(RECEIVE, seat, le(start, 4), le(n, 4), reply)

    def leave(self, seat):
        return self.call(LEAVE, seat)

    def lay(self, start, content):
        return self.call(LAY, le(start, 4), content)

    def look(self):
        return self.call(LOOK)
