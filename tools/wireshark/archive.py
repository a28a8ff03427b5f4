"""The archive's writers and judge, asked through host/examples/calls.rs."""
import contextlib
import os
import pathlib
import subprocess
import sys

ROOT = pathlib.Path(__file__).resolve().parent.parent.parent


def word(value):
    return value if isinstance(value, str) else value.hex() if isinstance(value, bytes) else f"{value:x}"


def built():
    """Where the archive is, built if it must be."""
    made = subprocess.run([ROOT / "tools" / "archive"], stdout=subprocess.PIPE, text=True)
    if made.returncode:
        sys.exit("tools/wireshark: there is no archive to ask: see above")
    return made.stdout.strip()


@contextlib.contextmanager
def asking():
    """A function that makes a call and gives its answer: the number, and the words behind it."""
    environment = {**os.environ, "COE_DESK_LIB_DIR": built(), "CARGO_TARGET_DIR": str(ROOT / "target" / "host")}
    command = [ROOT / "tools" / "cargo", "run", "--quiet", "--offline", "--example", "calls"]
    with subprocess.Popen(command, cwd=ROOT / "host", env=environment, stdin=subprocess.PIPE, stdout=subprocess.PIPE, text=True,
                          bufsize=1) as calls:
        def ask(*call):
            text = " ".join(map(word, call))
            try:
                calls.stdin.write(text + "\n")
                number, *rest = calls.stdout.readline().split()
            except (BrokenPipeError, ValueError):
                sys.exit(f"tools/wireshark: host/examples/calls.rs gave no answer to '{text}': see above")
            return [int(number, 16), *rest]
        yield ask
