"""A peer for `qds post` and `qds dump`: runs a command with its own address in place of the word ADDR, waits until the command
has sent a heartbeat or its END, sends a file, and prints what it got.

    python3 examples/peer.py FILE COMMAND.."""
import socket
import subprocess
import sys
import threading

name, *words = sys.argv[1:]
got = b''


def serve(server):
    global got
    conn, _ = server.accept()
    with conn, open(name, 'rb') as file:
        while not got.endswith((b'==HEARTBEAT\n', b'==END\n')) and (piece := conn.recv(65_536)):
            got += piece
        conn.sendfile(file)
        conn.shutdown(socket.SHUT_WR)
        while piece := conn.recv(65_536):
            got += piece


with socket.create_server(('127.0.0.1', 0)) as server:
    peer = threading.Thread(target=serve, args=(server,), daemon=True)
    peer.start()
    addr = f'127.0.0.1:{server.getsockname()[1]}'
    status = subprocess.run([addr if word == 'ADDR' else word for word in words]).returncode
    peer.join(5)
print('the peer got:', got.decode(), sep='\n', end='')
sys.exit(status)
