"""How many instructions something takes, which no other work and no place of the code changes: an emulator notes each one that it runs.
On x86-64, where programs need none, Debian's runs them for the count alone."""
import os
import pathlib
import platform
import subprocess

NEED = pathlib.Path(__file__).resolve().parent.parent / "need"
DEBIANS = "/usr/bin/qemu-x86_64"
MARK = "coe_bench_mark"
# the bench's functions: the loops and arguments around a call, which are the same for both forms, and the plain form
BENCH, PLAIN = "_ZN12beside_plain", "_ZN12beside_plain5plain"


def emulator():
    """What has the bench, by cargo, and the order program, by tools/program, run under an emulator where they would not."""
    if platform.machine() != "x86_64":
        return {}
    subprocess.run([NEED, "the count of instructions", "qemu-user"], check=True)
    return {"CARGO_TARGET_X86_64_UNKNOWN_LINUX_GNU_RUNNER": DEBIANS, "COE_DESK_EMULATOR": DEBIANS}


def noted(start, use):
    """The program that `start` starts with an environment and a file to leave open, and what `use` makes of its notes, one line for each
    instruction."""
    read, write = os.pipe()
    noting = {"QEMU_SINGLESTEP": "1", "QEMU_LOG": "exec,nochain", "QEMU_LOG_FILENAME": f"/dev/fd/{write}"}
    running = start({**noting, **emulator()}, write)
    os.close(write)
    with open(read) as notes:
        return running, use(note for note in notes if note.startswith("Trace"))


def between_marks(notes):
    """The number of instructions from a mark of the bench to the next, in pairs: of the archive's form, and of the plain one. A note
    ends in its function's name, if that is known: the C library's are not."""
    counts, inside, last = [], False, ""
    for note in notes:
        name = note[note.rindex("]") + 1:].strip()
        if name == MARK and last != MARK:
            inside = not inside
            if inside:
                counts.append(0)
        elif inside and name != MARK and (name.startswith(PLAIN) or not name.startswith(BENCH)):
            counts[-1] += 1
        last = name
    return list(zip(counts[::2], counts[1::2]))


def of_calls(program, folder):
    """Of each table, row and column the instructions of both forms."""
    running, counts = noted(lambda noting, file: program.started(folder, 0, {"COE_DESK_COUNT": "1", **noting}, [file]), between_marks)
    return dict(zip([tuple(fields) for fields in program.lines(running)], counts))


def total(start):
    running, count = noted(start, lambda notes: sum(1 for _ in notes))
    running.wait()
    return count
