"""What Wireshark reads in a frame beside what the frame was made of and what the archive's judge reads in it."""


def own(frame, part, ours):
    """What we read as this part: the judge's word where it has one."""
    return ours.get(part, frame.asked.get(part))


def expected(frame, part, ours):
    """What Wireshark is to read as this part."""
    return frame.otherwise[part][1] if part in frame.otherwise else own(frame, part, ours)


def shown(value):
    if isinstance(value, bytes):
        return value.hex()
    return "nothing" if value is None else f"{value:#x}" if isinstance(value, int) else value


def said(who, value, right, row):
    return f"{who} {shown(value)}, and should read {shown(right)}" + (f", by row {row} of docs/DIFFERENCES.md" if row else "")


def of_theirs(frame, read, ours):
    """Where Wireshark does not read what it should. A part that none of us knows is such a place too."""
    for part in {**frame.asked, **ours, **frame.otherwise, **read}:
        right = expected(frame, part, ours)
        if read.get(part) != right:
            yield part, said("Wireshark reads", read.get(part), right, frame.otherwise.get(part, [None])[0])


def of_ours(frame, ours):
    """Where the judge does not read what the frame was made of, or what a row says; and a row that is no difference."""
    for part in {**ours, **frame.otherwise}:
        row, theirs, right = frame.otherwise.get(part, (None, None, frame.asked.get(part)))
        if own(frame, part, ours) != right:
            yield part, said("we read", own(frame, part, ours), right, row)
        elif row and right == theirs:
            yield part, f"row {row} is no difference: both sides are to read {shown(right)}"


def complaints(frame, read, ours):
    return [*of_theirs(frame, read, ours), *of_ours(frame, ours)]
