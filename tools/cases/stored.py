"""What the scripts that write stored cases share: numbers as bytes, the check of a buffer, and the two files of a program."""
import functools
import pathlib
import sys

CRATES = pathlib.Path(__file__).resolve().parent.parent.parent / "crates"
PIECE = 65536
PRIME = 65521
BLOCK = 4096


def le(n, width):
    return n.to_bytes(width, "little")


@functools.lru_cache(4096)
def check_of(block):
    value = 0
    for b in block:
        value = (31 * value + b) % PRIME
    return value


def check(buffer):
    """The programs' check of a buffer: its bytes as the digits of a number to the base 31, modulo a prime. Block by block,
    because most blocks of a large buffer were met before."""
    value = 0
    for at in range(0, len(buffer), BLOCK):
        block = bytes(buffer[at:at + BLOCK])
        value = (value * pow(31, len(block), PRIME) + check_of(block)) % PRIME
    return value


def pieces(texts):
    """The lines, with empty ones between so that no line crosses a piece: the program reads 65,536 bytes at a time."""
    out, room = [], PIECE
    for text in texts:
        if room < len(text) + 1:
            out.append("\n" * room)
            room = PIECE
        out.append(text + "\n")
        room -= len(text) + 1
    return "".join(out)


def keep(program, lines, wanted):
    """Writes the program's stdin and stdout, or with `--check` only compares them."""
    for name, text in {"stdin": pieces(lines), "stdout": "\n".join(wanted) + "\n"}.items():
        path = CRATES / program / name
        if "--check" not in sys.argv:
            path.write_text(text)
        elif not path.is_file() or path.read_text() != text:
            sys.exit(f"{sys.argv[0]}: {path} is not what this script writes: run it without --check and look at the change")
