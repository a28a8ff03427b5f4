"""The parts that the archive's judge reads in a reply, found by asking it: what it says of the bytes, and which requests it takes
the reply for."""
ROOM = 131070
DONE, REQUEST_DUE, REPLY_DUE, EMERGENCY, ABORTED, WRONG, TOO_LARGE = 0x00, 0x01, 0x02, 0x21, 0x22, 0x23, 0x24


def stored(answer):
    """The chunk, or None where nothing was stored: Wireshark too shows no data then."""
    return bytes.fromhex(answer[1]) if answer[1:] and answer[0] in (DONE, REQUEST_DUE, REPLY_DUE) else None


def unlike(answer):
    """In place of a part whose answer is another than it can have: it agrees with nothing."""
    return f"the answer {answer[0]:02x}"


def the_one(values, accepted):
    """The value that is accepted, or None where several are or none is."""
    found = [value for value in values if accepted(value)]
    return found[0] if len(found) == 1 else None


def near(value, bits):
    return [value, *(value ^ 1 << bit for bit in range(bits))]


def place(kind, index, sub):
    """The index and sub-index that a request must have for the reply to be its own."""
    def ours(ask, mailbox):
        def own(i, s):
            return ask("judge", kind, ROOM, mailbox, i, s)[0] != WRONG
        return {"index": the_one(near(index, 16), lambda i: own(i, sub)),
                "sub-index": the_one(near(sub, 8), lambda s: own(index, s))}
    return ours


def upload(index, sub):
    def ours(ask, mailbox):
        data = stored(ask("judge", "upload", ROOM, mailbox, index, sub))
        return {**place("upload", index, sub)(ask, mailbox), "data": data}
    return ours


def normal_upload(index, sub, size):
    """The complete size is the smallest room that is not too small."""
    def ours(ask, mailbox):
        def enough(room):
            return ask("judge", "upload", room, mailbox, index, sub)[0] != TOO_LARGE
        rooms = range(max(size - 2, 0), min(size + 2, ROOM + 1))
        return {**upload(index, sub)(ask, mailbox), "complete size": next(filter(enough, rooms), None)}
    return ours


def segment(ask, mailbox):
    answer = ask("judge", "segment", ROOM, mailbox)
    return {"data": stored(answer), "last": {DONE: 1, REQUEST_DUE: 0}.get(answer[0])}


def fragment(kind):
    def ours(ask, mailbox):
        answer = ask("judge", kind, ROOM, mailbox)
        return {"data": stored(answer), "incomplete": {DONE: None, REPLY_DUE: 1}.get(answer[0], unlike(answer))}
    return ours


def information_error(ask, mailbox):
    """None where the reply is passed over, and the next one is due."""
    answer = ask("judge", "list", ROOM, mailbox)
    return {"abort code": None if answer == [REPLY_DUE] else unlike(answer)}


def abort(ask, mailbox):
    number, *values = ask("judge", "upload", ROOM, mailbox, 0, 0)
    code, index, sub = (int(value, 16) for value in values) if number == ABORTED else (None, None, None)
    return {"abort code": code, "index": index, "sub-index": sub}


def emergency(ask, mailbox):
    """None where it is not one and the same emergency to an upload, a download and a segment's request."""
    requests = ("upload", 0, 0), ("download", 0, 0), ("segment",)
    first, *others = [ask("judge", kind, ROOM, mailbox, *place) for kind, *place in requests]
    if first[0] != EMERGENCY or others != [first, first]:
        return dict.fromkeys(("emergency code", "register", "data"))
    _, code, register, data = first
    return {"emergency code": int(code, 16), "register": int(register, 16), "data": bytes.fromhex(data)}
