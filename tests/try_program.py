#!/usr/bin/env python3
"""Runs the built program on the cases in tests/cases/, and where its output cannot be written or memory is wanting.

    python3 tests/try_program.py [PROGRAM]

PROGRAM is the one that `rt ci` or ./cabcheck has built, where no other is named. How a case is written is told in
tests/README.md. Where something else came, it is shown beside what was wanted. Nothing is printed where all is well.
"""
import difflib
import os
import resource
import shlex
import signal
import subprocess
import sys
import tempfile
from pathlib import Path

TOP = Path(__file__).resolve().parent.parent
PROGRAM = Path(sys.argv[1] if len(sys.argv) > 1 else TOP / "crates/cabcheck/out/cabcheck").resolve()
FULL_FILE = b"cabcheck: output: File too large (os error 27)\n"
MORNING = TOP / "examples/morning.calls"
BUFFER = 8192
NO_MEMORY = b"cabcheck: not enough memory\n"
NO_MEMORY_FOR_THE_LIST = b"cabcheck: a: out of memory\n"


def read(path):
    return path.read_bytes() if path.exists() else b""


def run(words, stdin=b"", cwd=TOP, stdout=subprocess.PIPE, stderr=subprocess.PIPE, limits=()):
    """The program's status, and what it printed."""

    def limit():
        # a write past the limit is to fail, and not to end the program
        signal.signal(signal.SIGXFSZ, signal.SIG_IGN)
        for which, most in limits:
            resource.setrlimit(which, (most, most))

    ran = subprocess.run([PROGRAM, *words], input=stdin, cwd=cwd, stdout=stdout, stderr=stderr, preexec_fn=limit)
    return ran.returncode, ran.stdout or b"", ran.stderr or b""


def differences(name, wanted, came):
    """Lines that show what came beside what was wanted; none where it is the same."""
    told = []
    for part, one, other in zip(("status", "stdout", "stderr"), wanted, came):
        if one != other:
            lines = [[str(side)] if part == "status" else side.decode(errors="replace").split("\n") for side in (one, other)]
            told += difflib.unified_diff(*lines, f"{name}: {part} wanted", f"{name}: {part} that came", lineterm="")
    return told


def try_case(case):
    wanted = int(read(case / "status") or 0), read(case / "stdout"), read(case / "stderr")
    words = shlex.split(os.fsdecode(read(case / "command")))
    return differences(case.name, wanted, run(words, read(case / "stdin"), case))


def long_list(shift):
    """A list whose rows fill buffers. The row of a draft is shorter than others, so each draft moves the rows behind it against the end of a buffer."""
    rows = ["cycle 8000 00000000", "telegram 300601004869"]
    rows += ["record 0 1 10 5"] * shift
    rows += ["order sign", "press 1", "cycle 8000 00000001", "telegram 600230"] * 60
    return "".join(f"{row}\n" for row in rows).encode()


def try_full_file(folder):
    """Where a file takes no more bytes, that alone is told, and what stands there is how the output begins.

    The program writes when its buffer of 8192 bytes is full, and at the end: so the file is full at once, after one
    buffer, and, where all fits into one, a byte before the end.
    """
    told = []
    printed = folder / "printed"
    short = MORNING.read_bytes()
    for words in ([], ["--tsv"]):
        size = len(run(words, short)[1])
        trials = [(short, most) for most in (0, size // 2, size - 1)]
        trials += [(long_list(shift), most) for shift in range(100) for most in (0, BUFFER)]
        for text, most in trials:
            _, whole, _ = run(words, text)
            with open(printed, "wb") as out:
                status, _, stderr = run(words, text, stdout=out, limits=[(resource.RLIMIT_FSIZE, most)])
            name = f"full file, {words}, {len(text)} bytes of calls, {most} bytes taken"
            told += differences(name, (2, whole[:most], FULL_FILE), (status, printed.read_bytes(), stderr))
    return told


def try_little_memory(folder):
    """Where memory is wanting, that alone is told, and what was printed is how the output begins.

    The program has somewhat more memory than it wants to start, and the lists grow, by a row or by the bytes of a
    block. Their last texts differ, and the row that tells so is long: among the lists that just do not fit are some
    that have no memory left for it alone.
    """
    told = []
    came = set()
    starts = (kilobytes for kilobytes in range(1024, 65536, 16) if run(["--version"], limits=memory(kilobytes))[0] == 0)
    kilobytes = next(starts) + 192
    lists = [(rows, 0) for rows in [*range(300, 700, 4), 16000]] + [(400, size) for size in range(256, 32768, 256)]
    for rows, size in lists:
        block = f"cycle {size * '80'} -\n" if size else ""
        for name, letter in (("a", "e4"), ("b", "e5")):
            (folder / name).write_text("order sign\n" * rows + block + f"telegram 30cc0100{200 * letter}\n")
        words = ["--second", "b", "a"]
        _, whole, _ = run(words, cwd=folder)
        status, stdout, stderr = run(words, cwd=folder, limits=memory(kilobytes))
        if status == 2 and stderr in (NO_MEMORY_FOR_THE_LIST, NO_MEMORY) and whole.startswith(stdout):
            came.add("wanting to read the list" if stderr == NO_MEMORY_FOR_THE_LIST else "wanting while rows are printed" if stdout else "wanting before")
        elif (status, stdout, stderr) == (1, whole, b""):
            came.add("enough")
        else:
            told.append(f"little memory, {kilobytes} kB for {rows} rows and {size} bytes: status {status}, {len(stdout)} bytes, {stderr}")
    every = {"wanting to read the list", "wanting before", "wanting while rows are printed", "enough"}
    return told + [f"little memory: it was never {it}" for it in sorted(every - came)]


def memory(kilobytes):
    return [(resource.RLIMIT_AS, kilobytes * 1024)]


def try_closed_pipe():
    """Whoever reads the table, or the last lines that stand behind rows, has closed the pipe: nothing is said."""
    told = []
    _, rows, _ = run(["--tsv", MORNING])
    for words, closed, wanted in (([], "stdout", b""), (["--tsv"], "stderr", rows)):
        reader, writer = os.pipe()
        os.close(reader)
        with open(writer, "wb") as out:
            told += differences(f"closed pipe, {words}", (2, wanted, b""), run([*words, MORNING], **{closed: out}))
    return told


def main():
    if not PROGRAM.exists():
        print(f"there is no program {PROGRAM}: rt ci or ./cabcheck builds it")
        return 1
    cases = sorted(path for path in (TOP / "tests/cases").iterdir() if path.is_dir())
    told = [line for case in cases for line in try_case(case)]
    told += try_closed_pipe()
    with tempfile.TemporaryDirectory() as folder:
        told += try_little_memory(Path(folder))
        told += try_full_file(Path(folder))
    print("\n".join(told), end="\n" if told else "")
    return 1 if told or not cases else 0


if __name__ == "__main__":
    sys.exit(main())
