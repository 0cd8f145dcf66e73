"""Makes hostile inputs from seeds: random bytes, scripts that are mostly right, and texts with bytes and lines changed."""

PROTOCOL, END = b'==PROTOCOL\t1\n', b'==END\n'
LIMITS = [0, 1, 2, 9, 10, 127, 128, 255, 256, 4096, 4097, 2**31, 2**32, 2**53, 2**63 - 1, 2**63, 2**64 - 1, 2**64, 10**20]
NUMBERS = [b'', b'-', b'-0', b'-0.0', b'.', b'.5', b'5.', b'5.0000000000', b'0' * 300 + b'7', b'1e2', b'+1', b'0x1', b' 1', b'1_0']
NUMBERS += [sign + str(n).encode() for n in LIMITS for sign in (b'', b'-')]
NUMBERS += [b'922337203685477.5807', b'922337203685477.5808', b'-922337203685477.5808', b'-922337203685477.5809', b'1.00000', b'1.00001']
HEADS = [b'==' + kind + b'_' + what for kind in (b'TICKER', b'STREAM', b'HISTORY') for what in (b'DATA', b'ADD_SUBSCRIPTION', b'REMOVE_SUBSCRIPTION')]
HEADS.append(b'==STREAM_LOST')
TAKES = [b'==TAKE\tTICKER\t10', b'==TAKE\tSTREAM\t4096', b'==TAKE\tHISTORY\t1', b'==TAKE\tHISTORY\t10', b'==LINK\t1', b'==LINK\t0', b'==HEARTBEAT', b'==TIME\t5']
STEPS = TAKES + [b'==END', b'==NODE\t1\t0', b'==AT\t1\t0', b'==PUMP\t1', b'==MOVE\t1\tUP\t9', b'==PROTOCOL\t1', b'==PROTOCOL\t2', b'#', b'', b'=', b'==', b'=Quote']
FIELDS = {b'Quote': 4, b'Trade': 3, b'Candle': 5, b'Order': 3}
NAMES = list(FIELDS) + [b'Bar', b'', b'=x', b'#x', b'quote']
SYMBOLS = [b'IBM', b'A', b'IBM{=d}', b'"', b'', b'I BM', b'x' * 64, b'x' * 65, b'\x7f', b'\xc3\xa4', b'=A', b'\x00']
DESCRIPTIONS = [b'=A\tX:i', b'=B\t*\tX:d4\tY:i', b'=A\tX:i\tX:i', b'=A\tX:d10', b'=A\tX:', b'=A\tX', b'=\tX:i', b'=A', b'=A\t*', b'=A\t\t*', b'==A', b'A', b'=1\tX:i',
                b'=' + b'n' * 32 + b'\tX:i', b'=' + b'n' * 33 + b'\tX:i', b'=A\t' + b'\t'.join(b'f%d:i' % n for n in range(16)), b'=C\t' + b'\t'.join(b'f%d:i' % n for n in range(17))]


def random_line(rng):
    """A line put together from pieces that look right or nearly so."""
    kind = rng.randrange(10)
    if kind == 0:
        return rng.choice(STEPS)
    if kind == 1:
        return rng.choice(HEADS)
    if kind == 2:
        return rng.randbytes(rng.randrange(40)).replace(b'\n', b'')
    parts = [rng.choice(NAMES), rng.choice(SYMBOLS)] if kind == 3 else [rng.choice(NAMES[:4]), rng.choice(SYMBOLS[:3])]
    parts += [rng.choice(NUMBERS) if kind < 6 else b'%d' % rng.randrange(10) for _ in range(rng.choice((0, 1, 3, 4, 5, 7)))]
    return b'\t'.join(parts)


def body_line(head, rng):
    """A line that mostly fits its head."""
    if rng.random() < 0.02:
        return random_line(rng)
    name = rng.choice(NAMES[2:4] if b'HISTORY' in head else NAMES[:2])
    parts = [name, rng.choice(SYMBOLS[:3])]
    if head == b'==HISTORY_ADD_SUBSCRIPTION':
        parts.append(b'%d' % rng.randrange(8))
    elif head == b'==STREAM_LOST':
        parts.append(b'%d' % rng.choice((1, 2, 2**64 - 1)))
    elif head.endswith(b'DATA'):
        if b'HISTORY' in head:
            parts += [b'%d' % rng.randrange(8), b'%d' % rng.choice((0, 0, 0, 1, 2, 4, 5, 8, 16, 12, 64))]
        parts += [b'%d' % rng.randrange(100) for _ in range(FIELDS[name])]
    return b'\t'.join(parts)


def script(rng):
    """Heads with their body lines, and steps; mostly right."""
    lines = [PROTOCOL.strip()]
    for _ in range(rng.randrange(1, 14)):
        head = rng.choice(HEADS)
        lines.append(head)
        lines += [body_line(head, rng) for _ in range(rng.randrange(5))]
        if rng.random() < 0.5:
            lines.append(rng.choice(TAKES))
    return b'\n'.join(lines) + b'\n' + END


def noise(rng):
    """Bytes of any kind, or lines of any kind."""
    if rng.random() < 0.3:
        return rng.choice((b'', PROTOCOL)) + rng.randbytes(rng.randrange(3000))
    lines = [random_line(rng) for _ in range(rng.randrange(20))]
    return rng.choice((b'', PROTOCOL, PROTOCOL)) + b'\n'.join(lines) + rng.choice((b'', b'\n', b'\n' + END))


def scheme(rng):
    """Descriptions, mostly right."""
    lines = [rng.choice(DESCRIPTIONS) if rng.random() < 0.7 else b'=R%d\tX:i\tY:d%d' % (n, rng.randrange(11)) for n in range(rng.choice((1, 2, 3, 64, 65)))]
    return mutated(b'\n'.join(lines) + rng.choice((b'', b'\n')), rng)


def mutated(text, rng):
    """A text with a few bytes or lines changed."""
    for _ in range(rng.randrange(1, 4)):
        text = changed_byte(text, rng) if text and rng.random() < 0.25 else b'\n'.join(changed_lines(text.split(b'\n'), rng))
    return text


def changed_byte(text, rng):
    """A byte is another one, or the text ends before it."""
    at = rng.randrange(len(text))
    return text[:at] + rng.choice((rng.randbytes(1) + text[at + 1:], b''))


def changed_lines(lines, rng):
    """A line is left out, doubled, exchanged, longer, new, or one of its parts is another number."""
    at, other, kind = rng.randrange(len(lines)), rng.randrange(len(lines)), rng.randrange(6)
    if kind == 0:
        return lines[:at] + lines[at + 1:]
    if kind == 1:
        return lines[:at] + [lines[at]] + lines[at:]
    if kind == 2:
        lines[at], lines[other] = lines[other], lines[at]
    elif kind == 3:
        lines[at] += rng.choice((b'\t', b'\r', b'\r\r', b'\t1', b'\x00', b'9' * rng.randrange(4080, 4100)))
    elif kind == 4:
        parts = lines[at].split(b'\t')
        parts[rng.randrange(len(parts))] = rng.choice(NUMBERS)
        lines[at] = b'\t'.join(parts)
    else:
        lines.insert(at, random_line(rng))
    return lines
