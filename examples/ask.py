"""Asks `qds replay` step by step: puts a quote, takes, and waits for the answer before the next quote."""
import subprocess

qds = subprocess.Popen(['./qds', 'replay'], stdin=subprocess.PIPE, stdout=subprocess.PIPE, text=True)


def tell(*lines):
    qds.stdin.write('\n'.join(lines) + '\n')
    qds.stdin.flush()


def take():
    tell('==TAKE\tTICKER\t10')
    return [line.rstrip('\n') for line in iter(qds.stdout.readline, '==HEARTBEAT\n') if line[0] not in '=#']


tell('==PROTOCOL\t1', '==TICKER_ADD_SUBSCRIPTION', 'Quote\tIBM')
for price in (100, 102, 101):
    tell('==TICKER_DATA', f'Quote\tIBM\t{price}\t5\t{price + 1}\t7')
    print('put', price, 'and was given', *take())
tell('==END')
qds.stdin.close()
