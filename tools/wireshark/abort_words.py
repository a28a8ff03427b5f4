"""The words for an abort code: those of docs/ABORT_CODES.md, and where those of Wireshark's CANopen dissector part from them."""
import pathlib
import re

PAGE = pathlib.Path(__file__).resolve().parent.parent.parent / "docs" / "ABORT_CODES.md"
OURS = {int(number, 16): words for number, words in re.findall(r"^\| `(0x[0-9a-f]{8})` \| `\w+` \| (.*) \|$", PAGE.read_text(), re.M)}

# Rows W15 to W17 of docs/DIFFERENCES.md. Wireshark has CiA 301's codes: not those that ETG.1000.6 adds, and five that it leaves out.
ONLY_OURS = {0x06010003, 0x06010004, 0x06010005, 0x06010006}
ONLY_THEIRS = {
    0x08000024: "No data available",
    0x05040002: "Invalid block size",
    0x05040003: "Invalid sequence number",
    0x05040004: "CRC error",
    0x060a0023: "Resource not available: SDO connection",
}
IN_OTHER_WORDS = {
    0x05030000: "Toggle bit not alternated",
    0x05040000: "SDO protocol timed out",
    0x05040001: "Client/server command specifier not valid or unknown",
    0x06010001: "Attempt to read a write only object",
    0x06010002: "Attempt to write a read only object",
    0x06020000: "Object does not exist in the object dictionary",
    0x06040041: "Object cannot be mapped to the PDO",
    0x06040042: "The number and length of the objects to be mapped would exceed PDO length",
    0x06060000: "Access failed due to an hardware error",
    0x06090011: "Sub-index does not exist",
    0x06090030: "Invalid value for parameter",
}


def asked(code):
    """Our words, or None where the code is not listed."""
    return {"words": OURS.get(code)}


def otherwise(code):
    """The row by which Wireshark has other words, or none, or words for a code that is not listed here."""
    if code in ONLY_OURS:
        return {"words": ("W15", None, OURS.get(code))}
    if code in ONLY_THEIRS:
        return {"words": ("W16", ONLY_THEIRS[code], None)}
    if code in IN_OTHER_WORDS:
        return {"words": ("W17", IN_OTHER_WORDS[code], OURS.get(code))}
    return {}
