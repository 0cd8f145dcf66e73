"""Tries `post` and `dump` against peers over real sockets: some that keep to the rules, and some that do not: that reset, never read,
send a byte at a time, send no line feed, never close, or are not there."""
import socket
import struct
import subprocess
import threading
import time

import trial
from live import Talk

BEGIN, END, BEAT = b'==PROTOCOL\t1\n', b'==END\n', b'==HEARTBEAT\n'
HEAD, QUOTE = b'==TICKER_DATA\n', b'Quote\tIBM\t1\t1\t1\t1\n'
SUBSCRIBED = BEGIN + b'==TICKER_ADD_SUBSCRIPTION\nQuote\tIBM\n' + BEAT
NET = (6, b'', b'qds: net fault\n')
MOST = 8


class Peer:
    """Listens, takes one connection, and does with it what it was told, in a thread. What it read is kept in `got`."""

    def __init__(self, does, family=socket.AF_INET, host='127.0.0.1'):
        self.server = socket.socket(family, socket.SOCK_STREAM)
        self.server.bind((host, 0))
        self.server.listen()
        self.server.settimeout(MOST)
        port = self.server.getsockname()[1]
        self.addr = f'[{host}]:{port}' if family == socket.AF_INET6 else f'{host}:{port}'
        self.port, self.does, self.got, self.dialled, self.ended = port, does, b'', False, threading.Event()
        self.thread = threading.Thread(target=self.serve, daemon=True)

    def __enter__(self):
        self.thread.start()
        return self

    def __exit__(self, *_):
        self.ended.set()
        try:
            # What still waits for a connection is woken.
            self.server.shutdown(socket.SHUT_RDWR)
        except OSError:
            pass
        self.server.close()
        self.thread.join(MOST)

    def serve(self):
        try:
            self.conn, _ = self.server.accept()
        except OSError:
            return
        self.dialled = True
        self.conn.settimeout(MOST)
        try:
            self.does(self)
        except OSError:
            pass
        finally:
            self.conn.close()

    def read_to(self, last):
        """Reads until what came ends so, or nothing more comes."""
        while not self.got.endswith(last):
            piece = self.conn.recv(65_536)
            if not piece:
                return
            self.got += piece

    def read_out(self):
        """Reads to the end of what the client sends."""
        while piece := self.conn.recv(65_536):
            self.got += piece

    def reset(self):
        """Closes so that the client is told of a reset."""
        self.conn.setsockopt(socket.SOL_SOCKET, socket.SO_LINGER, struct.pack('ii', 1, 0))
        self.conn.close()


def reads_all(peer):
    peer.read_out()


def says(text, waits_for=SUBSCRIBED):
    """Waits for the subscription, sends a text, and reads to the end."""
    def does(peer):
        peer.read_to(waits_for)
        peer.conn.sendall(text)
        peer.read_out()
    return does


def says_and_closes(text):
    def does(peer):
        peer.read_to(SUBSCRIBED)
        peer.conn.sendall(text)
        peer.conn.shutdown(socket.SHUT_WR)
        peer.read_out()
    return does


def judged(name, end, wanted, got=None, sent=None):
    """What the program answered, and what its peer got."""
    failed = trial.differing(f'peers.py: {name}', end, wanted)
    if sent is not None and got != sent:
        failed += [(f'peers.py: {name}: what was sent', *trial.around(got, sent))]
    return 1, failed


def posted(name, text, does, wanted, sent, words=(), **where):
    with Peer(does, **where) as peer:
        end = trial.run(['post', peer.addr, *words], text)
        peer.thread.join(MOST)
        return judged(name, end, wanted, peer.got, sent)


def dumped(name, does, wanted, sent, words=('TICKER', 'Quote/IBM', '--count', '1'), **where):
    with Peer(does, **where) as peer:
        end = trial.run(['dump', peer.addr, *words])
        peer.thread.join(MOST)
        return judged(name, end, wanted, peer.got, sent)


def try_post():
    text = BEGIN + HEAD + b'Quote\tIBM\t1.0\t1\t1\t1\n' + END
    return posted('a text is posted in canonical lines', text, reads_all, (0, b'', b''), BEGIN + HEAD + QUOTE + END)


def try_post_by_name():
    return posted('a host has a name', BEGIN + END, reads_all, (0, b'', b''), BEGIN + END, host='localhost')


def try_post_over_ipv6():
    try:
        socket.create_server(('::1', 0), family=socket.AF_INET6).close()
    except OSError:
        # This machine has no such address.
        return 0, []
    return posted('an address of the sixth version', BEGIN + END, reads_all, (0, b'', b''), BEGIN + END, family=socket.AF_INET6, host='::1')


def try_post_time():
    text = BEGIN + b'==TIME\t7\n' + HEAD + QUOTE + END
    return posted('a moment is not posted', text, reads_all, (0, b'', b''), BEGIN + HEAD + QUOTE + END)


def try_post_bad_step():
    return posted('a step of a script is not posted', BEGIN + b'==LINK\t1\n' + END, reads_all, (1, b'', b'qds: line 2: BadStep\n'), BEGIN)


def try_post_cut_off():
    return posted('a text that is cut off', BEGIN + HEAD + QUOTE, reads_all, (1, b'', b'qds: after line 3: CutOff\n'), BEGIN + HEAD + QUOTE)


def try_post_bad_line():
    return posted('a text with a wrong line', BEGIN + HEAD + QUOTE + b'Quote\tIBM\tx\t1\t1\t1\n' + END, reads_all, (1, b'', b'qds: line 4, place 11: BadByte\n'), BEGIN + HEAD + QUOTE)


def try_post_follows():
    """What was read is sent before more is waited for."""
    with Peer(reads_all) as peer, Talk(['post', peer.addr]) as talk:
        for given, wanted in ((BEGIN, BEGIN), (HEAD + QUOTE, BEGIN + HEAD + QUOTE)):
            talk.give(given)
            until = time.monotonic() + 5
            while len(peer.got) < len(wanted) and time.monotonic() < until:
                time.sleep(0.005)
            if peer.got != wanted:
                return 1, [('peers.py: post sends what it read', peer.got, wanted)]
        talk.give(END)
        end = talk.end()
        peer.thread.join(MOST)
        return judged('post of pieces', end, (0, b'', b''), peer.got, BEGIN + HEAD + QUOTE + END)


def try_post_slow_reader():
    """A peer that reads a little at a time loses nothing."""
    text = BEGIN + HEAD + QUOTE * 300_000 + END
    def does(peer):
        while piece := peer.conn.recv(65_536):
            peer.got += piece
            time.sleep(0.005)
    return posted('a slow reader', text, does, (0, b'', b''), text)


def try_post_answered():
    """A server that talks while it is posted to, ends with END and keeps its side open: the program does not wait for it."""
    def does(peer):
        peer.conn.sendall(BEGIN + BEAT * 1_000)
        peer.read_to(END)
        peer.conn.sendall(END)
        peer.ended.wait(MOST)
    started = time.monotonic()
    with Peer(does) as peer:
        end = trial.run(['post', peer.addr], BEGIN + HEAD + QUOTE + END)
        took, got = time.monotonic() - started, peer.got
    count, failed = judged('a server that stays after END', end, (0, b'', b''), got, BEGIN + HEAD + QUOTE + END)
    return count, failed + ([] if took < 5 else [('peers.py: a server that stays after END is not waited for', took, 'less than 5 s')])


def try_post_never_read():
    """A peer that never reads is waited for; where it goes away the connection has failed."""
    def does(peer):
        peer.conn.setsockopt(socket.SOL_SOCKET, socket.SO_RCVBUF, 4096)
        peer.ended.wait(1)
        peer.reset()
    with Peer(does) as peer:
        end = trial.run(['post', peer.addr], BEGIN + HEAD + QUOTE * 1_000_000 + END)
    return judged('a peer that never reads', end, NET)


def try_post_reset():
    def does(peer):
        peer.conn.recv(10)
        peer.reset()
    with Peer(does) as peer:
        end = trial.run(['post', peer.addr], BEGIN + HEAD + QUOTE * 1_000_000 + END)
    return judged('a peer that resets while it is posted to', end, NET)


def try_nobody(words):
    """A port on which nobody listens."""
    with socket.socket() as taken:
        taken.bind(('127.0.0.1', 0))
        end = trial.run([words[0], f'127.0.0.1:{taken.getsockname()[1]}', *words[1:]], BEGIN + END)
    return judged(f'{words[0]}: nobody listens', end, NET)


def try_no_name(words):
    """A host that no name service can know, and an address without a port."""
    failed = []
    for addr in ('a' * 64 + ':7400', '127.0.0.1', '127.0.0.1:', ':::'):
        failed += trial.differing(f'peers.py: {words[0]} {addr}', trial.run([words[0], addr, *words[1:]], BEGIN + END), NET)
    return 4, failed


def try_dump():
    return dumped('one quote is dumped', says(BEGIN + HEAD + QUOTE + BEAT + END), (0, HEAD + QUOTE, b''), SUBSCRIBED + END)


def try_dump_fewer():
    words = ('TICKER', 'Quote/IBM', '--count', '5')
    return dumped('the server ends first', says(BEGIN + HEAD + QUOTE + BEAT + END), (0, HEAD + QUOTE, b''), SUBSCRIBED + END, words)


def try_dump_all_kinds():
    """Items of every collector that come are printed, asked for or not, without heartbeats; each head once for its run."""
    came = (BEGIN + HEAD + QUOTE + BEAT + HEAD + QUOTE + b'==STREAM_LOST\nTrade\tA\t3\n==STREAM_DATA\nTrade\tA\t1\t1\t1\n' + BEAT
            + b'==HISTORY_DATA\nCandle\tIBM\t30\t4\t3\t3\t3\t3\t3\n' + BEAT + END)
    shown = HEAD + QUOTE + QUOTE + b'==STREAM_LOST\nTrade\tA\t3\n==STREAM_DATA\nTrade\tA\t1\t1\t1\n==HISTORY_DATA\nCandle\tIBM\t30\t4\t3\t3\t3\t3\t3\n'
    return dumped('all kinds of items', says(came), (0, shown, b''), SUBSCRIBED + END, ('TICKER', 'Quote/IBM', '--count', '9'))


def try_dump_wants():
    sent = BEGIN + b'==HISTORY_ADD_SUBSCRIPTION\nCandle\tIBM\t5\nCandle\tA/B\t5\n' + BEAT
    words = ('HISTORY', 'Candle/IBM', 'Candle/A/B', '--count', '1', '--limit', '5')
    return dumped('two keys of the history', says(BEGIN + END, sent), (0, b'', b''), sent + END, words)


def try_dump_wrong_want():
    """A want whose record is not known, or has no index where the history is asked: nothing is dialled."""
    failed = []
    for words in (('TICKER', 'Foo/IBM'), ('HISTORY', 'Quote/IBM')):
        with Peer(reads_all) as peer:
            end = trial.run(['dump', peer.addr, *words, '--count', '1'])
            dialled = peer.dialled
        failed += trial.differing(f'peers.py: dump {words}', end, (1, b'', b'qds: line 0: BadStep\n'))
        failed += [(f'peers.py: dump {words}: nothing is dialled', dialled, False)] if dialled else []
    return 2, failed


def try_dump_byte_by_byte():
    def does(peer):
        peer.read_to(SUBSCRIBED)
        peer.conn.setsockopt(socket.IPPROTO_TCP, socket.TCP_NODELAY, 1)
        for byte in BEGIN + HEAD + QUOTE * 3 + BEAT + END:
            peer.conn.sendall(bytes([byte]))
        peer.read_out()
    return dumped('a byte at a time', does, (0, HEAD + QUOTE * 3, b''), SUBSCRIBED + END, ('TICKER', 'Quote/IBM', '--count', '3'))


def try_dump_reset():
    """A reset in the middle of a line: what came before is printed."""
    def does(peer):
        peer.read_to(SUBSCRIBED)
        peer.conn.sendall(BEGIN + HEAD + QUOTE + b'Quote\tIB')
        peer.ended.wait(0.3)
        peer.reset()
    return dumped('a reset in the middle of a line', does, (6, HEAD + QUOTE, b'qds: net fault\n'), SUBSCRIBED, ('TICKER', 'Quote/IBM', '--count', '9'))


def try_dump_cut_off():
    return dumped('the server closes in the middle of a line', says_and_closes(BEGIN + HEAD + QUOTE + b'Quote\tIB'),
                  (1, HEAD + QUOTE, b'qds: after line 3: CutOff\n'), SUBSCRIBED, ('TICKER', 'Quote/IBM', '--count', '9'))


def try_dump_says_nothing():
    return dumped('a server that says nothing and closes', says_and_closes(b''), (1, b'', b'qds: after line 0: CutOff\n'), SUBSCRIBED)


def try_dump_bad_line():
    return dumped('a server that sends rubbish', says_and_closes(BEGIN + b'\x00\xff\n' + END), (1, b'', b'qds: line 2, place 1: Order\n'), SUBSCRIBED)


def try_dump_no_line_feed():
    """100 MB without a line feed: the line is too long, and what comes after it is dropped."""
    def does(peer):
        peer.read_to(SUBSCRIBED)
        peer.conn.sendall(BEGIN)
        for _ in range(100):
            peer.conn.sendall(b'x' * 1_000_000)
        peer.conn.shutdown(socket.SHUT_WR)
        peer.read_out()
    return dumped('100 MB without a line feed', does, (1, b'', b'qds: line 2: LineTooLong\n'), SUBSCRIBED)


def try_dump_stays():
    """A server that keeps its side open after END is not waited for."""
    def does(peer):
        peer.read_to(SUBSCRIBED)
        peer.conn.sendall(BEGIN + HEAD + QUOTE + BEAT + END)
        peer.read_to(END)
        whole.set()
        peer.ended.wait(MOST)
    started, whole = time.monotonic(), threading.Event()
    with Peer(does) as peer:
        end = trial.run(['dump', peer.addr, 'TICKER', 'Quote/IBM', '--count', '9'])
        took = time.monotonic() - started
        whole.wait(MOST)
        got = peer.got
    count, failed = judged('a server that stays after END', end, (0, HEAD + QUOTE, b''), got, SUBSCRIBED + END)
    return count, failed + ([] if took < 5 else [('peers.py: dump does not wait for a server that stays', took, 'less than 5 s')])


def try_dump_follows():
    """What came is printed before more is waited for."""
    more = threading.Event()
    def does(peer):
        peer.read_to(SUBSCRIBED)
        peer.conn.sendall(BEGIN + HEAD + QUOTE + BEAT)
        more.wait(MOST)
        peer.conn.sendall(HEAD + QUOTE + BEAT + END)
        peer.read_out()
    with Peer(does) as peer, Talk(['dump', peer.addr, 'TICKER', 'Quote/IBM', '--count', '9']) as talk:
        found = talk.wait(len(HEAD + QUOTE))
        more.set()
        if found != HEAD + QUOTE:
            return 1, [('peers.py: dump prints what came', found, HEAD + QUOTE)]
        return judged('dump of pieces', talk.end(), (0, HEAD + QUOTE * 2, b''))


def try_dump_full_disk():
    """A failed write of what came is a write fault; the connection is hung up all the same."""
    with Peer(says(BEGIN + HEAD + QUOTE + BEAT + END)) as peer, open('/dev/full', 'wb') as full:
        process = trial.start(['dump', peer.addr, 'TICKER', 'Quote/IBM', '--count', '9'], stdin=subprocess.DEVNULL, stdout=full, stderr=subprocess.PIPE)
        try:
            _, line = process.communicate(timeout=min(trial.time_left(), MOST))
        except subprocess.TimeoutExpired:
            return 1, [('peers.py: dump to a full disk', trial.stopped(process, MOST), 'status 4')]
        end = trial.End(process.returncode, b'', line)
    return judged('dump to a full disk', end, (4, b'', b'qds: write fault\n'))


def jobs():
    """Those that take longest first."""
    posts, dumps = ('post',), ('dump', 'TICKER', 'Quote/IBM', '--count', '1')
    first = [try_post_never_read, try_dump_no_line_feed, try_post_reset, try_post_slow_reader]
    rest = [it for name, it in sorted(globals().items()) if name.startswith('try_') and it not in first + [try_nobody, try_no_name]]
    return [(it,) for it in first + rest] + [(it, words) for it in (try_nobody, try_no_name) for words in (posts, dumps)]
