"""The bench of host/benches, built and started with its code at a place of a page."""
import os
import pathlib
import subprocess
import sys

ROOT = pathlib.Path(__file__).resolve().parent.parent.parent
BUILT = ROOT / "target" / "bench"
FIRST, STEP = 0x20000, 0x150
# As the archive is built: in one unit, so that functions of other modules are put into their callers, and with calls of the C library
# that go through the linker's table. Rust's would not, and an emulator makes that jump dear; it is an unstable option of Debian's
# compiler, which takes it with RUSTC_BOOTSTRAP alone.
FLAGS = "-C codegen-units=1 -Z plt=yes"


def archive_folder():
    return subprocess.run([ROOT / "tools" / "archive"], stdout=subprocess.PIPE, text=True, check=True).stdout.strip()


def started(folder, place, environment={}, files=()):
    """The running bench, for the archive in that folder: each line that it prints has its fields between tabs."""
    flags = f"{FLAGS} -C link-arg=-Wl,--section-start=.text={FIRST + STEP * place:#x}"
    build = {"RUSTFLAGS": flags, "RUSTC_BOOTSTRAP": "1", "COE_DESK_LIB_DIR": folder, "CARGO_TARGET_DIR": str(BUILT)}
    command = [ROOT / "tools" / "cargo", "bench", "--quiet", "--offline", "--bench", "beside_plain"]
    return subprocess.Popen(command, cwd=ROOT / "host", env={**os.environ, **build, **environment}, pass_fds=files,
                            stdout=subprocess.PIPE, text=True)


def lines(running):
    """The fields of each line, once the bench has ended well."""
    printed, _ = running.communicate()
    if running.returncode != 0:
        sys.exit("tools/speed: the bench does not build, or the two forms differ: see above")
    return [line.split("\t") for line in printed.splitlines()]
