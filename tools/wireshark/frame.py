"""A frame that Wireshark reads, and the parts that it is to have, by the names of document 01's layouts."""
import dataclasses
import typing


@dataclasses.dataclass
class Frame:
    kind: str
    asked: dict  # part -> the value it was made with
    otherwise: dict = dataclasses.field(default_factory=dict)  # part -> row of docs/DIFFERENCES.md, Wireshark's value, ours
    call: tuple = ()  # a request: the archive's call that writes it
    mailbox: bytes = b""
    ours: typing.Callable = None  # a reply: asks the archive's judge for the parts that it reads
    first = 0  # the first byte of the mailbox that is on the wire

    def packed(self):
        """The bytes that the length field names, with the six of the header."""
        return self.mailbox[:6 + self.asked["length"]]

    def named(self):
        return f"{self.kind} {self.packed().hex()}"


def header(counter, length, service, **more):
    return {"length": length, "address": 0, "priority": 0, "type": 3, "counter": counter, "number": 0, "service": service, **more}


def flags(indicator, expedited, size):
    return {"size indicator": indicator, "expedited": expedited, "size, low bit": size & 1, "size, high bit": size >> 1}
