"""Tries the program on the cases of checks/cases.

A case is a folder with the files args (one word a line), stdin, stdout, stderr and status; one that is not there is
empty, and the status 0. Where there is a file make_stdin, the input is what python3 prints for it; where there is a
file stdin_from, it is the file that this names, seen from the top. The files of data/ lie where the program runs, and so
does the folder examples/."""
import pathlib
import shutil
import sys
import tempfile

import trial

TOP = pathlib.Path(__file__).resolve().parent.parent


def read(path):
    return path.read_bytes() if path.exists() else b''


def given_input(case):
    maker = case / 'make_stdin'
    if maker.exists():
        return trial.run([str(maker)], program=sys.executable).out
    named = case / 'stdin_from'
    if named.exists():
        return (TOP / named.read_text().strip()).read_bytes()
    return read(case / 'stdin')


def answer(case):
    words = read(case / 'args').decode().splitlines()
    with tempfile.TemporaryDirectory() as place:
        (pathlib.Path(place) / 'examples').symlink_to(TOP / 'examples')
        if (case / 'data').is_dir():
            shutil.copytree(case / 'data', place, dirs_exist_ok=True)
        return trial.run(words, given_input(case), cwd=place)


def try_case(case):
    expected = (int(read(case / 'status') or b'0'), read(case / 'stdout'), read(case / 'stderr'))
    return 1, trial.differing(case.name, answer(case), expected)


def jobs():
    """Each tries one case; those that make their input first, which take the longest."""
    found = [path for path in (TOP / 'checks' / 'cases').iterdir() if path.is_dir()]
    return [(try_case, case) for case in sorted(found, key=lambda case: (not (case / 'make_stdin').exists(), case.name))]
