"""Runs of the program that is tried: each is bounded in time, and so are all of them together.

A program that hangs is killed with all that it has started. What cannot be started, hangs or is too late answers an End
whose status says so in words, which no case expects; so a trial always comes to its end."""
import collections
import ctypes
import os
import pathlib
import signal
import subprocess
import tempfile
import time

TOP = pathlib.Path(__file__).resolve().parent.parent
LAUNCHER = TOP / 'qds'
# The most seconds that one run and all runs together may take.
ONE, ALL = 20, 110

# What Linux calls a signal that comes when the parent has ended.
PR_SET_PDEATHSIG = 1
LIBC = ctypes.CDLL(None)

End = collections.namedtuple('End', 'status out line')
# `until` is when all runs have to be over. Where a run was stopped, later ones get a shorter time.
settings = {'program': LAUNCHER, 'until': None, 'one': ONE}


def begin(program=None, seconds=ALL):
    settings.update(program=pathlib.Path(program).resolve() if program else LAUNCHER, until=time.monotonic() + seconds, one=ONE)


def program():
    return settings['program']


def time_left():
    left = settings['until'] - time.monotonic() if settings['until'] else ONE
    return min(left, settings['one'])


def kill(process):
    """Ends a process that was not waited for yet, and all that it has started."""
    if process.returncode is not None:
        return
    try:
        os.killpg(process.pid, signal.SIGKILL)
    except ProcessLookupError:
        pass
    process.kill()


def stopped(process, seconds):
    kill(process)
    process.communicate()
    settings['one'] = min(settings['one'], 2)
    return End(f'no answer in {seconds:.0f} s', b'', b'')


def in_child():
    """A run ends with its parent, and signals mean to it what they mean in the foreground: whoever starts the checks behind nohup
    or with & has SIGINT ignored, and what is ignored stays so in all that is started."""
    LIBC.prctl(PR_SET_PDEATHSIG, signal.SIGKILL)
    for ignored in (signal.SIGINT, signal.SIGQUIT, signal.SIGHUP):
        signal.signal(ignored, signal.SIG_DFL)


def start(words, program=None, **how):
    """Starts the program, or another one, in a group of its own; it ends with the process that started it at the latest."""
    return subprocess.Popen([str(program or settings['program']), *words], start_new_session=True, preexec_fn=in_child, **how)


def run(words, given=b'', program=None, stdin=subprocess.PIPE, stderr=subprocess.PIPE, **how):
    """What the program answers to words and an input."""
    seconds = time_left()
    if seconds <= 0:
        return End('no time is left', b'', b'')
    try:
        process = start(words, program, stdin=stdin, stdout=subprocess.PIPE, stderr=stderr, **how)
    except OSError as error:
        return End(f'cannot be started: {error.strerror}', b'', b'')
    try:
        out, line = process.communicate(given if stdin == subprocess.PIPE else None, timeout=seconds)
    except subprocess.TimeoutExpired:
        return stopped(process, seconds)
    return End(process.returncode, out, line or b'')


def run_beside(files, words, given=b'', **how):
    """The same in a folder with these files."""
    with tempfile.TemporaryDirectory() as place:
        for name, held in files.items():
            (pathlib.Path(place) / name).write_bytes(held)
        return run(words, given, cwd=place, **how)


def differing(name, got, wanted):
    """No fault where an answer is the wanted one, else one that says which parts differ and where."""
    if tuple(got) == tuple(wanted):
        return []
    parts = [part for part, found, want in zip(End._fields, got, wanted) if found != want]
    founds, wants = zip(*(around(found, want) for found, want in zip(got, wanted) if found != want))
    return [(f'{name}: {", ".join(parts)}', list(founds), list(wants))]


def around(found, wanted):
    """Two texts from a little before the place where they differ."""
    if not isinstance(found, bytes) or not isinstance(wanted, bytes):
        return found, wanted
    place = next((at for at, (one, other) in enumerate(zip(found, wanted)) if one != other), min(len(found), len(wanted)))
    start = max(0, place - 60)
    return found[start:place + 100], wanted[start:place + 100]
