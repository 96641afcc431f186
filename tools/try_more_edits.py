"""Tries the edits that the gate leaves out: each must be refused.

The gate has to end in time, so each crate's must-fail/ has the edits that tell
most.  tools/more-edits/NAME/ has others of the crate NAME: of functions that
hand out a field or make an empty value, and second edits of one rule.  They are
tried in a copy of the repository, by `rt must-fail`.

    python3 tools/try_more_edits.py [NAME..]
"""

import pathlib
import shutil
import subprocess
import sys
import tempfile

TOP = pathlib.Path(__file__).resolve().parent.parent
MORE = TOP / "tools" / "more-edits"


def put_in(copy, names):
    """Every crate's edits go, and those to be tried stand in their place."""
    for crate in (copy / "crates").iterdir():
        shutil.rmtree(crate / "must-fail", ignore_errors=True)
    for name in names:
        shutil.copytree(MORE / name, copy / "crates" / name / "must-fail")


def refused(copy, name):
    """Prints what is said of each edit; answers whether all are refused."""
    ran = subprocess.run(["rt", "must-fail", name], cwd=copy,
                         capture_output=True, text=True)
    said = (ran.stdout + ran.stderr).splitlines()
    own = [line for line in said if line.startswith(f"rt: must-fail {name}/")]
    edits = len(list((MORE / name).glob("*.edit")))
    right = [line for line in own if "refused, as it must be" in line]
    for line in own if len(right) == edits else said:
        print(line[:200], flush=True)
    return len(right) == edits


def main(names):
    names = names or sorted(crate.name for crate in MORE.iterdir())
    with tempfile.TemporaryDirectory() as place:
        copy = pathlib.Path(place) / "copy"
        shutil.copytree(TOP, copy, ignore=shutil.ignore_patterns("target"))
        put_in(copy, names)
        wrong = [name for name in names if not refused(copy, name)]
    print(f"{len(names) - len(wrong)} crates right, {len(wrong)} not", *wrong)
    return 1 if wrong else 0


if __name__ == "__main__":
    sys.exit(main(sys.argv[1:]))
