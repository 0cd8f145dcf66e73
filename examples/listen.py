"""Shows what a history client sees: reads what `qds replay` prints for one link, and prints each key's events once they are whole."""
import sys

PENDING, REMOVE, BEGIN, END, SNIP = 1, 2, 4, 8, 16
keys = {}
for line in sys.stdin:
    record, *parts = line.rstrip('\n').split('\t')
    if record not in ('Candle', 'Order'):
        continue
    symbol, index, flags, cells = parts[0], int(parts[1]), int(parts[2]), parts[3:]
    key = keys.setdefault((record, symbol), {'shown': {}, 'held': [], 'new': True, 'ended': False})
    if flags & BEGIN:
        key.update(held=[], new=True, ended=False)
    key['held'].append((index, flags, cells))
    key['ended'] = key['ended'] or bool(flags & (END | SNIP))
    if flags & PENDING or not key['ended']:
        continue
    shown = {} if key['new'] else key['shown']
    for at, what, numbers in key['held']:
        shown.pop(at, None)
        if not what & REMOVE:
            shown[at] = numbers
    key.update(shown=shown, held=[], new=False)
    print(record, symbol, '; '.join(f'{at}: {shown[at][3] if record == "Candle" else shown[at][0]}' for at in sorted(shown, reverse=True)) or 'nothing')
