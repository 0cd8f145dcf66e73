"""Tries what a run shows of the program while it goes on, and how it is started: output that follows input, signals, several
processes on one stream, closed streams, words and folders that are unusual, and the launcher."""
import os
import pathlib
import select
import signal
import subprocess
import tempfile
import time

import trial
from trial import End

BEGIN, END = b'==PROTOCOL\t1\n', b'==END\n'
QUOTE = b'Quote\tIBM\t100\t5\t101\t7\n'
FEED = BEGIN + b'==TICKER_DATA\n' + QUOTE
SUBSCRIBED = BEGIN + b'==TICKER_ADD_SUBSCRIPTION\nQuote\tIBM\n==TICKER_DATA\n' + QUOTE
TAKE, TAKEN = b'==TAKE\tTICKER\t10\n', b'#LINK\t0\tTICKER\n==TICKER_DATA\n' + QUOTE + b'==HEARTBEAT\n'
USAGE, READ, WRITE = (2, b'', b'qds: usage\n'), (3, b'', b'qds: read fault\n'), (4, b'', b'qds: write fault\n')
BUILT = trial.TOP / 'crates/qds/out/qds'
PIPES = {'stdin': subprocess.PIPE, 'stdout': subprocess.PIPE, 'stderr': subprocess.PIPE}


class Talk:
    """A run that is given its input piece by piece, and whose output is looked at in between."""

    def __init__(self, words, **how):
        self.process = trial.start(words, **{**PIPES, **how})
        self.out = b''

    def __enter__(self):
        return self

    def __exit__(self, *_):
        trial.kill(self.process)
        self.process.wait()
        for stream in (self.process.stdin, self.process.stdout, self.process.stderr):
            try:
                stream.close()
            except OSError:
                pass

    def give(self, piece):
        try:
            self.process.stdin.write(piece)
            self.process.stdin.flush()
        except OSError:
            pass

    def wait(self, size):
        """What has come of so many bytes, with the time that one run may take."""
        until = time.monotonic() + min(trial.time_left(), 5)
        while len(self.out) < size and time.monotonic() < until:
            if select.select([self.process.stdout], [], [], max(0, until - time.monotonic()))[0]:
                piece = os.read(self.process.stdout.fileno(), 65_536)
                if not piece:
                    break
                self.out += piece
        return self.out

    def end(self, by=None):
        if by is not None:
            self.process.send_signal(by)
        try:
            self.process.stdin.close()
        except OSError:
            pass
        try:
            self.process.wait(timeout=min(trial.time_left(), 5))
        except subprocess.TimeoutExpired:
            return End('no end', self.out, b'')
        return End(self.process.returncode, self.out + self.process.stdout.read(), self.process.stderr.read())


def try_following(word, pieces):
    """What each piece of the input lets print is there before the next piece is given."""
    count, failed, wanted = 0, [], b''
    with Talk([word]) as talk:
        for given, printed in pieces:
            talk.give(given)
            wanted += printed
            count += 1
            if talk.wait(len(wanted)) != wanted:
                return count, [(f'live.py: {word} prints what it read before it waits for more, piece {count}', talk.out, wanted)]
        end = talk.end()
    return count + 1, failed + trial.differing(f'live.py: {word} of pieces', end, (0, wanted, b''))


def try_co_process():
    """A client that waits for the answer to each of its TAKEs before it goes on."""
    quotes = [b'Quote\tIBM\t%d\t5\t101\t7\n' % price for price in range(100, 120)]
    rounds = [(b'==TICKER_DATA\n' + quote + TAKE, TAKEN.replace(QUOTE, quote)) for quote in quotes]
    return try_following('replay', [(SUBSCRIBED + TAKE, BEGIN + TAKEN), *rounds, (END, END)])


def try_fifo():
    """A slow writer behind a fifo that the program opens by its name."""
    with tempfile.TemporaryDirectory() as place:
        path = pathlib.Path(place) / 'fifo'
        os.mkfifo(path)
        with Talk(['fmt', str(path)]) as talk:
            # Opened for reading too, so that a program that does not open it makes nobody wait.
            with os.fdopen(os.open(path, os.O_RDWR), 'wb', buffering=0) as writer:
                for piece in (FEED[:5], FEED[5:], b'Quote\tI', b'BM\t1\t2\t3\t4\n'):
                    writer.write(piece)
                    time.sleep(0.02)
                wanted = FEED + b'Quote\tIBM\t1\t2\t3\t4\n'
                found = talk.wait(len(wanted))
                if found != wanted:
                    return 1, [('live.py: fmt of a fifo prints what it read', found, wanted)]
                writer.write(END)
            return 1, trial.differing('live.py: fmt of a fifo', talk.end(), (0, wanted + END, b''))


def try_interrupted(word, given, wanted):
    """Ctrl-C ends the program; what it had read before is printed."""
    with Talk([word]) as talk:
        talk.give(given)
        talk.wait(len(wanted))
        end = talk.end(signal.SIGINT)
    return 1, trial.differing(f'live.py: {word} until Ctrl-C', end, (-signal.SIGINT, wanted, b''))


def try_one_stream(rounds=6, processes=8):
    """Processes that share their standard error: each line on it is whole."""
    line = b'qds: line 3, place 11: TooLarge\n'
    text = BEGIN + b'==TICKER_DATA\nQuote\tIBM\t922337203685477.5808\t1\t1\t1\n' + END
    told = b''
    for _ in range(rounds):
        with tempfile.TemporaryFile() as error:
            runs = [trial.start(['check'], stdin=subprocess.PIPE, stdout=subprocess.DEVNULL, stderr=error) for _ in range(processes)]
            try:
                for run in runs:
                    # All wait for their input, and then have it almost at once.
                    run.stdin.write(text)
                for run in runs:
                    run.stdin.close()
                for run in runs:
                    run.wait(timeout=min(trial.time_left(), 5))
            except (OSError, subprocess.TimeoutExpired) as error_of_run:
                return 1, [('live.py: 8 processes on one standard error', error_of_run, 'an end of each')]
            finally:
                for run in runs:
                    trial.kill(run)
            error.seek(0)
            told += error.read()
    wanted = line * (rounds * processes)
    return 1, [] if told == wanted else [('live.py: lines of 8 processes on one standard error', told, 'each line whole')]


def try_one_write():
    """The line on standard error is one write: a pipe of packets has each write by itself."""
    reader, writer = os.pipe2(os.O_DIRECT)
    with os.fdopen(reader, 'rb', buffering=0) as packets:
        process = trial.start(['check'], stdin=subprocess.DEVNULL, stdout=subprocess.DEVNULL, stderr=writer)
        os.close(writer)
        try:
            process.wait(timeout=min(trial.time_left(), 5))
        except subprocess.TimeoutExpired:
            trial.kill(process)
        first = os.read(reader, 4096)
    wanted = b'qds: after line 0: CutOff\n'
    return 1, [] if first == wanted else [('live.py: the line on standard error is one write', first, wanted)]


# What a shell closes, and what the launcher's program answers then; None where nobody can see it.
CLOSED = [
    ('check <&-', READ), ('fmt <&-', READ), ('replay <&-', READ), ('check --scheme s <&-', READ), ('check --scheme s t <&-', (0, b'items 3\n', b'')),
    ('check t >&-', WRITE), ('fmt t >&-', WRITE), ('replay t >&-', WRITE), ('check --scheme s t >&-', WRITE), ('fmt --scheme s t >&-', WRITE),
    ('check t 2>&-', (0, b'items 3\n', b'')), ('check --scheme s wrong 2>&-', (1, b'', b'')), ('fmt --scheme s t >&- 2>&-', (4, b'', b'')),
    ('check wrong 2>/dev/full', (1, b'', b'')), ('fmt t >/dev/full', WRITE), ('check t >/dev/full', WRITE),
    ('check --scheme s <&- 2>&-', (3, b'', b'')), ('--scheme <&- >&-', USAGE),
]
FILES = {'s': b'=Bar\tP:d2\n', 't': BEGIN + b'==HEARTBEAT\n' + END, 'wrong': BEGIN + b'==NOPE\n' + END}


def try_closed(words, wanted):
    """A standard stream that is closed, with the launcher, which opens what is closed. Files stay as they are."""
    with tempfile.TemporaryDirectory() as other, tempfile.TemporaryDirectory() as place:
        launcher = tree(other, 'top', None) / 'qds'
        for name, held in FILES.items():
            (pathlib.Path(place) / name).write_bytes(held)
        got = trial.run(['-c', f'exec "$0" {words}', str(launcher)], program='bash', stdin=subprocess.DEVNULL, cwd=place)
        failed = trial.differing(f'live.py: qds {words}', got, wanted)
        changed = [name for name, held in FILES.items() if (pathlib.Path(place) / name).read_bytes() != held]
    return 1, failed or [(f'live.py: qds {words}', f'writes into {changed}', 'files stay as they are')] * bool(changed)


STUB = '#!/bin/sh\necho "the program of $(dirname "$0"): $*"\nexit 9\n'


def tree(place, name, program=STUB):
    """A checkout with the launcher and a program, or else the one that is tried, and nothing else."""
    top = pathlib.Path(place).resolve() / name
    out = top / 'crates/qds/out'
    out.mkdir(parents=True)
    (top / 'qds').write_bytes(trial.LAUNCHER.read_bytes())
    (top / 'qds').chmod(0o755)
    if program is None:
        tried = trial.program()
        (out / 'qds').symlink_to(BUILT if tried == trial.LAUNCHER else tried)
    else:
        (out / 'qds').write_text(program)
        (out / 'qds').chmod(0o755)
    return top


def try_launcher():
    """The launcher runs the program of its own tree, however it is named."""
    failed = []
    with tempfile.TemporaryDirectory() as place:
        place = pathlib.Path(place).resolve()
        top, other = tree(place, 'top'), tree(place, 'elsewhere/top')
        dashed = tree(place, '-n')
        (place / 'link').symlink_to('top/qds')
        (place / '-link').symlink_to('link')
        environment = {**os.environ, 'CDPATH': str(other.parent)}
        for words, of in (('top/qds', top), ('./top/qds', top), (f'{top}/qds', top), ('./link', top), ('./-link', top), ('./-n/qds', dashed), ('-n/qds', dashed)):
            got = trial.run(['a', 'b c'], program=words, cwd=place, env=environment)
            failed += trial.differing(f'live.py: {words} with a CDPATH', got, (9, f'the program of {of}/crates/qds/out: a b c\n'.encode(), b''))
        got = trial.run(['-c', 'cd -- -n && sh qds x'], program='bash', cwd=place, env=environment)
        failed += trial.differing('live.py: sh qds with a CDPATH', got, (9, f'the program of {dashed}/crates/qds/out: x\n'.encode(), b''))
    return 8, failed


def try_unbuilt(program):
    """Where the program is an empty file it is none: it is built, and where that fails the status is 127."""
    with tempfile.TemporaryDirectory() as place:
        top = tree(place, 'top', program)
        bin = pathlib.Path(place) / 'bin'
        bin.mkdir()
        (bin / 'rt').write_text('#!/bin/sh\necho cannot\nexit 1\n')
        (bin / 'rt').chmod(0o755)
        got = trial.run(['check'], program=top / 'qds', env={**os.environ, 'PATH': f'{bin}:{os.environ["PATH"]}', 'TMPDIR': place})
    right = got.status == 127 and got.out == b'' and b'qds: it could not be built' in got.line
    return 1, [] if right else [('live.py: an empty program is none', got, 'status 127, and a line that says so')]


def try_words_of_bytes():
    """A word that is not UTF-8 is refused, in each place."""
    failed, refused = [], ([b'\xff'], [b'check', b'\xff'], [b'fmt', b'--scheme', b'\xc3'], [b'fmt', b'--scheme=\xe2\x82'], [b'replay', b'--cap', b'\xff'], [b'check', b'--', b'a\x80'], [b'check\xff'])
    for words in refused:
        failed += trial.differing(f'live.py: {words}', run_bytes(words), USAGE)
    return len(refused), failed


def run_bytes(words):
    shown = ' '.join("$'" + ''.join(f'\\x{byte:02x}' for byte in word) + "'" for word in words)
    return trial.run(['-c', f'exec "$0" {shown}', str(trial.program())], FEED + END, program='bash')


def try_no_reader():
    """What is printed into a pipe that nobody reads: a failed write, and nothing else on standard error."""
    text = FEED + QUOTE * 40_000 + END
    process = trial.start(['fmt'], **PIPES)
    process.stdout.close()
    try:
        _, line = process.communicate(text, timeout=min(trial.time_left(), 5))
    except subprocess.TimeoutExpired:
        return 1, [('live.py: fmt for a pipe that nobody reads', trial.stopped(process, 5), WRITE)]
    lawful = (process.returncode, line) in ((4, b'qds: write fault\n'), (-signal.SIGPIPE, b''))
    return 1, [] if lawful else [('live.py: fmt for a pipe that nobody reads', (process.returncode, line), WRITE)]


def jobs():
    """Those that wait longest first."""
    following = [(FEED, FEED), (QUOTE, QUOTE), (QUOTE * 3 + b'Quo', QUOTE * 3), (b'te\tIBM\t1\t2\t3\t4\r\n', b'Quote\tIBM\t1\t2\t3\t4\n'), (END, END)]
    found = [(try_following, 'fmt', following), (try_co_process,), (try_fifo,), (try_interrupted, 'fmt', FEED, FEED), (try_interrupted, 'replay', SUBSCRIBED + TAKE, BEGIN + TAKEN),
             (try_interrupted, 'check', FEED, b''), (try_one_stream,), (try_one_write,), (try_launcher,), (try_unbuilt, ''), (try_words_of_bytes,), (try_no_reader,)]
    return found + [(try_closed, words, wanted) for words, wanted in CLOSED]
