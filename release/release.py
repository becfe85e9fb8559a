"""The program that the repository ships, and the digest of the sources that it was built from.

Run by itself, it prints the path of the program of the sources that are here, once ./stamp has run.
"""
import contextlib
import os
import shutil
import subprocess
import sys
from pathlib import Path

sys.path.insert(0, str(Path(__file__).resolve().parent.parent / "checks" / "gate.d"))
import tree  # noqa: E402

SHIPPED = tree.ROOT / "release" / "stamp-x86_64-linux"
DIGEST = tree.ROOT / "release" / "sources.sha256"
# The digest of the sources that were here at the last call, after the state that these files were in.
KNOWN = tree.ROOT / "release" / "out" / "sources"
USAGE = 2


def shipped_digest():
    """The digest of the sources of the shipped program, or the empty text if nothing is shipped."""
    return DIGEST.read_text(encoding="utf-8").strip() if DIGEST.is_file() and SHIPPED.is_file() else ""


def digest():
    """The digest of the sources that are here. They are read only if the state of their files is not that of the last call."""
    state = tree.state_of_sources()
    with contextlib.suppress(OSError, ValueError):
        known, kept = KNOWN.read_text(encoding="utf-8").split()
        if known == state:
            return kept
    made = tree.digest_of_program()
    # If this folder cannot be written, the next call reads the sources again.
    with contextlib.suppress(OSError):
        KNOWN.parent.mkdir(exist_ok=True)
        new = KNOWN.with_suffix(f".{os.getpid()}")
        try:
            new.write_text(f"{state} {made}\n", encoding="utf-8")
            os.replace(new, KNOWN)
        finally:
            new.unlink(missing_ok=True)
    return made


def why_not_started(program):
    """Why a program does not start on this machine, or None if it does: with no words it ends with the status of wrong usage."""
    try:
        ran = subprocess.run([program], stdin=subprocess.DEVNULL, stdout=subprocess.DEVNULL, stderr=subprocess.PIPE, text=True, errors="replace")
    except OSError as error:
        return error.strerror
    if ran.returncode == USAGE:
        return None
    return (ran.stderr.strip().splitlines() or [f"it ended with status {ran.returncode}"])[-1]


def is_as_built(copy, built):
    """Whether the shipped program is, byte for byte, the one that was built in a copy of the tree from sources of this digest, if both are of the same
    sources."""
    if shipped_digest() != built:
        print("prove: the shipped program is of other sources than those here; release/renew replaces it", flush=True)
        return True
    return SHIPPED.read_bytes() == tree.program_of(copy).read_bytes()


def renew(program):
    """Ships the program that was built from the sources that are here."""
    SHIPPED.parent.mkdir(exist_ok=True)
    new = SHIPPED.with_suffix(".new")
    shutil.copyfile(program, new)
    new.chmod(0o755)
    os.replace(new, SHIPPED)
    DIGEST.write_text(f"{tree.digest_of_program()}\n", encoding="utf-8")


def current():
    """The program of the sources that are here: the shipped one, or the one that ./stamp built."""
    found = digest()
    return SHIPPED if shipped_digest() == found else tree.kept_program(found)


if __name__ == "__main__":
    print(current())
