"""Programs that are measured: how one is proved and built, and how its instructions are counted."""
import re
import subprocess
import sys
from pathlib import Path

HERE = Path(__file__).resolve().parent
sys.dont_write_bytecode = True
sys.path[:0] = [str(HERE.parents[1] / "checks" / it) for it in ("programs", "models", "gate.d")]
import placed  # noqa: E402
import tree  # noqa: E402

# valgrind counts an instruction for each byte that `rep` fills or copies. So the C library fills and copies in another way.
CALLGRIND = (
    "env", "GLIBC_TUNABLES=glibc.cpu.x86_rep_stosb_threshold=1000000000:glibc.cpu.x86_rep_movsb_threshold=1000000000",
    "valgrind", "--tool=callgrind",
)


def build(copy, name, below):
    """The program in NAME.rt.txt of this folder, proved and built in a copy of the tree that has the crates below it."""
    placed.place(copy, HERE / f"{name}{placed.ENDING}", below)
    said = []
    _, failed = tree.prove(copy, said.append)
    if failed:
        sys.exit("".join(said) + f"{name}: the program was not proved: the lines above say why")
    return tree.program_of(copy, name)


def instructions(program, words, room):
    """The instructions before each look at the clock, since the look before. The files of the count are in the folder `room`."""
    command = [*CALLGRIND, "--dump-before=clock_gettime*", f"--callgrind-out-file={room}/calls", program, *words]
    subprocess.run(command, stdout=subprocess.DEVNULL, stderr=subprocess.DEVNULL, check=True)
    files = sorted(Path(room).glob("calls.*"), key=lambda it: int(it.suffix[1:]))
    return [int(re.search(r"^totals: (\d+)", it.read_text(), re.M)[1]) for it in files]
