"""The requests that the archive is asked for, each with the parts that its frame must be read to have: the call's own arguments,
and what document 01 fixes."""
import itertools

from frame import Frame, flags, header

WORDS = [0x1018, 0, 0xffff, *(1 << bit for bit in range(16))]
SUBS = [4, 0, 0xff, *(1 << bit for bit in range(8))]
DATA = list(map(bytes.fromhex, "5a 00 ff a55a 0000 ffff a55ac3 800001 ffffff 11223344 ffffffff 01000080".split()))
COUNTERS = range(1, 8)


def sdo(counter, specifier, **more):
    return header(counter, 10, 2, specifier=specifier, **more)


def place(index, sub):
    """Complete access names sub-index 1."""
    complete = sub == "complete"
    return {"index": index, "sub-index": 1 if complete else sub, "complete access": int(complete)}


def upload(counter, index, sub):
    return Frame("upload request", sdo(counter, 2, **place(index, sub)), call=("upload", counter, index, sub))


def download(counter, index, sub, data):
    asked = sdo(counter, 1, **place(index, sub), **flags(1, 1, 4 - len(data)), data=data)
    otherwise = {"data": ("W1", data + b"\0", data)} if len(data) == 3 else {}
    return Frame(f"download request of {len(data)}", asked, otherwise, ("download", counter, index, sub, data))


def segment(counter, toggle):
    return Frame("segment request", sdo(counter, 3, toggle=toggle), call=("segment", counter, toggle))


def object_list(counter, kind):
    asked = header(counter, 8, 8, operation=1, **{"fragments left": 0, "list kind": kind})
    return Frame("list request", asked, call=("list", counter, kind))


def requests():
    counters = itertools.cycle(COUNTERS)
    for index, sub in itertools.product(WORDS, [*SUBS, "complete"]):
        yield upload(next(counters), index, sub)
    for index, sub, data in itertools.product([0x6060, 0, 0xffff, 0x1c12], [4, 0, 0x80, "complete"], DATA):
        yield download(next(counters), index, sub, data)
    for counter, toggle in itertools.product(COUNTERS, (0, 1)):
        yield segment(counter, toggle)
    for counter, kind in itertools.product(COUNTERS, range(6)):
        yield object_list(counter, kind)
