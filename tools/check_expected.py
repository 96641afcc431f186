"""Compares what the programs are to write with the independent model.

    python3 tools/check_expected.py            compares; 1 where they differ
    python3 tools/check_expected.py --write    makes the files again

The files are the programs' inputs and expected outputs: stdin and stdout in
crates/script and crates/vectors, and stdout in crates/bench and
crates/example.  The gate runs the programs against them; this says whether
they are what the model gives.

Where the script program is built (cd crates/script && rt run < stdin), it is
also run on a pipe, as it was last built: a letter at a time, where each must
be answered before the next is sent, and then in parts of several sizes.
"""

import argparse
import os
import pathlib
import select
import subprocess
import sys

import make_bench_lines
import make_crc_vectors
import make_example_lines
import make_script_cases
from onewire_model import check_everything, script_output

CRATES = pathlib.Path(__file__).resolve().parent.parent / "crates"
PROGRAM = CRATES / "script" / "out" / "script"

LETTERS_ONE_BY_ONE = 600
PARTS = (1, 2, 7, 4095, 4096, 4097, 9000)
PATIENCE = 10                     # seconds for an answer


# ---------------------------------------------------------------------------
# The files


def text(lines):
    return "".join(f"{line}\n" for line in lines).encode("ascii")


def expected_files():
    """The name of each file below crates/, and its bytes."""
    check_everything()
    letters = make_script_cases.make_input()
    yield "script/stdin", letters
    yield "script/stdout", script_output(letters).encode("ascii")
    make_bench_lines.check_everything()
    yield "bench/stdout", text(make_bench_lines.all_lines())
    yield "example/stdout", text(make_example_lines.all_lines())
    sums = [make_crc_vectors.vector_line(message)
            for message in make_crc_vectors.all_messages()]
    yield "vectors/stdin", text(line.split()[0] for line in sums)
    yield "vectors/stdout", text(sums)


def shown(line):
    return repr(line if len(line) <= 60 else line[:60] + b"..")


def difference(found, wanted):
    """Where two files first differ, in words; nothing where they do not."""
    if found == wanted:
        return None
    found_lines = found.splitlines(keepends=True)
    wanted_lines = wanted.splitlines(keepends=True)
    number = next((i for i, (a, b) in enumerate(zip(found_lines, wanted_lines))
                   if a != b), min(len(found_lines), len(wanted_lines)))
    has, model = (lines[number] if number < len(lines) else b""
                  for lines in (found_lines, wanted_lines))
    place = next((i for i, (a, b) in enumerate(zip(has, model)) if a != b),
                 min(len(has), len(model)))
    start = max(0, place - 20)
    return (f"differs in line {number + 1}, byte {place + 1}: from byte"
            f" {start + 1} it has {shown(has[start:])}, and the model says"
            f" {shown(model[start:])}")


def compare(name, wanted):
    """Says how the file compares; answers whether it is as the model says."""
    file = CRATES / name
    wrong = (difference(file.read_bytes(), wanted) if file.exists()
             else "is missing")
    print(f"crates/{name}: {wrong or f'as the model says, {len(wanted)} bytes'}")
    return wrong is None


# ---------------------------------------------------------------------------
# The script program on a pipe


def take(program, count):
    """What the program writes, up to so many bytes, while it does not wait."""
    taken = b""
    while len(taken) < count:
        ready, _, _ = select.select([program.stdout], [], [], PATIENCE)
        got = b""
        if ready:
            got = os.read(program.stdout.fileno(), count - len(taken))
        if not got:
            break
        taken += got
    return taken


def feed(letters, size):
    """Sends parts of one size, each after the last was answered; what came."""
    with subprocess.Popen([PROGRAM], stdin=subprocess.PIPE, bufsize=0,
                          stdout=subprocess.PIPE) as program:
        answers = b""
        try:
            for at in range(0, len(letters), size):
                program.stdin.write(letters[at:at + size])
                answers += take(program, len(letters[at:at + size]))
                if len(answers) < min(at + size, len(letters)):
                    return answers
            program.stdin.close()
            return answers + take(program, 2)
        except BrokenPipeError:
            return answers
        finally:
            program.kill()


def check_program():
    if not PROGRAM.exists():
        print("the script program is not built: not tried on a pipe")
        return True
    letters = make_script_cases.make_input()
    right = True
    for size in PARTS:
        front = letters[:LETTERS_ONE_BY_ONE] if size == 1 else letters
        wrong = difference(feed(front, size),
                           script_output(front).encode("ascii"))
        print(f"the script program, {len(front)} letters in parts of {size}:"
              f" {wrong or 'as the model says'}")
        right = right and wrong is None
    return right


# ---------------------------------------------------------------------------


def main():
    parser = argparse.ArgumentParser(description="expected outputs")
    parser.add_argument("--write", action="store_true",
                        help="make the files again")
    write = parser.parse_args().write
    files = list(expected_files())
    if write:
        for name, wanted in files:
            (CRATES / name).write_bytes(wanted)
    same = [compare(name, wanted) for name, wanted in files]
    return 0 if all(same) & check_program() else 1


if __name__ == "__main__":
    sys.exit(main())
