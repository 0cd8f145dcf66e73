#!/usr/bin/env python3
"""Runs random scripts of the ticker and the stream and random texts through the program, all from fixed seeds, and compares
each answer, byte for byte, with that of feed_rules and text_rules.

    checks/random_scripts.py [--seeds N] [--first N] [--program FILE]

A shape says what a script is for: many links, long outputs, small and large caps, many keys, large counts of losses."""
import argparse
import collections
import random
import string
import sys

sys.dont_write_bytecode = True
import feed_rules
import inputs
import text_rules
import trial
from text_rules import Definition, Field

# calls: how many; links, keys: among how many; records: of one put; takes: their sizes; wild: how often a line is one of the hostile ones
Shape = collections.namedtuple('Shape', 'calls links keys records takes caps wild')
SHAPES = {
    'small': Shape(300, range(4), 6, (1, 2, 3), (1, 2, 3, 8), (1, 2, 3, 5, 8), 0),
    'links': Shape(400, range(90, 128), 20, (1, 2, 5), (1, 4, 40), (1, 7, 100, 101), 0),
    'long': Shape(40, range(3), 1500, (200, 900), (700, 4096), (3000, 4096), 0),
    'caps': Shape(120, (0, 99, 100, 127), 9, (40, 130), (1, 99, 100, 101, 150, 300, 2000), (99, 100, 101, 128, 250, 1000), 0),
    'groups': Shape(8, (0, 5), 60, (4095, 4096, 4097, 8193), (4095, 4096), (4095, 4096, 2048), 0),
    'wild': Shape(60, range(3), 6, (1, 2, 3), (1, 2, 8), (1, 3, 1024), 0.004),
}
CELLS = (0, 1, -1, 9, 10, 99, 100, 12_345, -123_456_789, 999_999_999, 10**9, 2**31, 2**32 + 1, 2**53 + 1, -2**53 - 1, 2**63 - 1, -2**63, -2**63 + 1)
LOST = (1, 1, 2, 9, 100, 1000, 2**31, 2**32, 2**53 + 1, 2**63 - 1, 2**63, 2**64 - 2, 2**64 - 1)
VISIBLE = ''.join(map(chr, range(0x21, 0x7F)))


def draw_scheme(draw):
    """The built-in records, or more than ten records of one's own with fields of every scale."""
    if draw.random() < 0.5:
        return text_rules.BUILTIN
    count = draw.choice((11, 12, 13, 20, 64))
    kinds = [None, *range(10)]
    return [Definition(f'R{n}' + draw.choice(('', '_x', 'y' * 20)), n % 3 == 2, tuple(Field(f'F{m}', draw.choice(kinds)) for m in range(draw.choice((0, 1, 2, 5, 16)))))
            for n in range(count)]


def draw_symbol(draw):
    size = draw.choice((1, 2, 3, 8, 20, 62, 63, 64, 64))
    # Some differ from others in their last byte alone.
    text = draw.choice(string.ascii_uppercase) * (size - 1) + draw.choice(VISIBLE) if draw.random() < 0.5 else ''.join(draw.choices(VISIBLE, k=size))
    return 'X' + text[1:] if text[0] in '#="' else text


def draw_keys(draw, definitions, count):
    # Records beyond the tenth are drawn as often as the first ten.
    names = [draw.choice(definitions[10:] or definitions) if draw.random() < 0.5 else draw.choice(definitions) for _ in range(count)]
    return list(dict.fromkeys((definition, draw_symbol(draw)) for definition in names))


def draw_cell(draw, scale):
    """A number, mostly with as many digits behind the point as there may be, in its canonical form or another."""
    value = draw.choice(CELLS) if draw.random() < 0.4 else draw.randrange(-10**draw.randrange(1, 19), 10**draw.randrange(1, 19))
    text = text_rules.spelled(value, scale)
    kind = draw.random()
    if kind < 0.08:
        text = text.replace('-', '-00') if value < 0 else '00' + text
    elif kind < 0.16 and scale is not None:
        text += '000' if '.' in text else draw.choice(('.', '.0', '.00000000000'))
    return text


def record_line(draw, key):
    definition, name = key
    return '\t'.join([definition.name, name, *(draw_cell(draw, field.scale) for field in definition.fields)])


def draw_lines(draw, shape, definitions, kind):
    """The lines of a script of one collector, or of both."""
    keys = draw_keys(draw, definitions, shape.keys)
    for _ in range(shape.calls):
        what, which = draw.random(), draw.choice(kind)
        some = draw.sample(keys, min(len(keys), draw.choice((1, 1, 2, 3, 10, len(keys)))))
        if draw.random() < 0.6:
            yield f'==LINK\t{draw.choice(shape.links)}'
        if what < 0.2:
            yield f'=={which}_ADD_SUBSCRIPTION'
            yield from (f'{definition.name}\t{name}' for definition, name in some)
        elif what < 0.26:
            yield f'=={which}_REMOVE_SUBSCRIPTION'
            yield from (f'{definition.name}\t{name}' for definition, name in some[:draw.choice((1, 3, len(keys)))])
        elif what < 0.3 and which == 'STREAM':
            yield '==STREAM_LOST'
            yield from (f'{definition.name}\t{name}\t{draw.choice(LOST)}' for definition, name in some)
        elif what < 0.62:
            yield f'=={which}_DATA'
            count = draw.choice(shape.records)
            yield from (record_line(draw, draw.choice(keys)) for _ in range(count))
        else:
            yield f'==TAKE\t{which}\t{draw.choice(shape.takes)}'
        if draw.random() < 0.05:
            yield draw.choice(('', '#', '# a comment', '==HEARTBEAT', '\t'.join(text_rules.description(draw.choice(definitions)))))


def wild_line(draw):
    """A line that is likely to be refused, none of it about the history."""
    line = inputs.random_line(draw)
    return inputs.random_line(draw) if b'HISTORY' in line else line


def script(draw, shape, definitions, kind):
    lines = [b'==PROTOCOL\t1']
    for line in draw_lines(draw, shape, definitions, kind):
        lines.append(line.encode())
        if draw.random() < shape.wild:
            lines.append(wild_line(draw))
    lines += [f'==TAKE\t{which}\t4096'.encode() for which in kind] + [b'==END']
    return b'\n'.join(lines) + b'\n'


def scheme_text(definitions):
    return ''.join('\t'.join(text_rules.description(definition)) + '\n' for definition in definitions).encode()


def with_scheme(definitions, words, given):
    """What the program answers where these are the records."""
    if definitions is text_rules.BUILTIN:
        return trial.run(words, given)
    return trial.run_beside({'scheme': scheme_text(definitions)}, [*words, '--scheme', 'scheme'], given)


def try_script(name, kind, seed):
    """A random script of a shape: its replay, and now and then what the other commands say of it."""
    draw = random.Random(f'{name} {kind} {seed}')
    shape, definitions = SHAPES[name], draw_scheme(draw)
    text, cap = script(draw, shape, definitions, kind), draw.choice(shape.caps)
    said = f'random_scripts.py, {name} of {" and ".join(kind)}, seed {seed}, --cap {cap}'
    got = with_scheme(definitions, ['replay', '--cap', str(cap)], text)
    return 1, trial.differing(said, got, feed_rules.replayed(text, cap, definitions))


def text_lines(draw, definitions):
    """A text with items of all kinds, for `check` and `fmt`."""
    keys = draw_keys(draw, definitions, 8)
    of_history = [key for key in keys if key[0].is_history] or [draw_keys(draw, [d for d in definitions if d.is_history], 1)[0]]
    for _ in range(draw.choice((3, 20, 60, 220))):
        message = draw.choice(text_rules.HEADS).decode()
        yield f'=={message}'
        for definition, name in draw.choices(of_history if 'HISTORY' in message else keys, k=draw.choice((0, 1, 2, 6))):
            parts = [definition.name, name]
            if message == 'HISTORY_ADD_SUBSCRIPTION':
                parts.append(str(draw.choice((0, 7, 2**53 + 1, 2**63 - 1))))
            elif message == 'STREAM_LOST':
                parts.append(str(draw.choice(LOST)))
            elif message == 'HISTORY_DATA':
                parts += [str(draw.choice((0, 5, 10**10, 2**53 + 1, 2**63 - 1))), str(draw.randrange(256) & 0x5F)]
            if message.endswith('DATA'):
                parts += [draw_cell(draw, field.scale) for field in definition.fields]
            yield '\t'.join(parts)
        yield draw.choice(('', '#', '==HEARTBEAT', f'==TAKE\tTICKER\t{draw.choice(CELLS[:6])}'.replace('-', ''), f'==MOVE\t{draw.randrange(300)}\tDOWN\t{2**63 - 1}'))


def wrong_line(draw, line):
    """A line in which one thing is another: a byte, a part, a number."""
    parts, kind = line.split(b'\t'), draw.randrange(6)
    at = draw.randrange(len(parts))
    if kind == 0 and line:
        place = draw.randrange(len(line))
        return line[:place] + draw.choice((b'', b' ', b'\t', b'.', b'-', b'9', b'\xff')) + line[place + 1:]
    if kind == 1:
        parts[at] = draw.choice(inputs.NUMBERS)
    elif kind == 2:
        del parts[at]
    elif kind == 3:
        parts.insert(at, draw.choice((b'', b'1', b'x')))
    elif kind == 4:
        parts[at] += draw.choice((b'x', b'9' * 20, b'.00000000001', b'y' * draw.choice((60, 64, 4000, 5000)), b'0' * 300 + b'z'))
    else:
        return inputs.random_line(draw)
    return b'\t'.join(parts)


def draw_text(draw, definitions):
    lines = [b'==PROTOCOL\t1', *(line.encode() for line in text_lines(draw, definitions)), b'==END']
    kind = draw.random()
    if kind < 0.7:
        at = draw.randrange(len(lines))
        lines[at] = wrong_line(draw, lines[at])
    elif kind < 0.8:
        return b'\n'.join(lines)[:draw.randrange(1, 400)]
    return draw.choice((b'\n', b'\r\n')).join(lines) + b'\n' + draw.choice((b'', b'', b'==PROTOCOL\t1\nwrong\n', b'x' * 5000))


def try_texts(seed, count=12):
    """Random texts, most with one wrong line: what `check` and `fmt` say of each."""
    draw, failed = random.Random(f'text {seed}'), []
    for place in range(count):
        definitions = draw_scheme(draw)
        text = draw_text(draw, definitions)
        for word, answers in (('check', text_rules.checked), ('fmt', text_rules.formatted)):
            got = with_scheme(definitions, [word], text)
            failed += trial.differing(f'random_scripts.py, {word} of text {place} of seed {seed}', got, answers(text, definitions))
    return 2 * count, failed


KINDS = (('TICKER',), ('STREAM',), ('TICKER', 'STREAM'))


def jobs(seeds, first=1):
    """Each tries one script, or some texts, and tells how many answers there were and which of them are wrong; the long ones first."""
    heavy = ('groups', 'long', 'caps', 'links', 'small', 'wild')
    found = [(try_script, name, kind, seed) for name in heavy for kind in KINDS for seed in range(first, first + max(1, seeds // (4 if name in heavy[:3] else 1)))]
    return found + [(try_texts, seed) for seed in range(first, first + seeds)]


def main():
    words = argparse.ArgumentParser()
    words.add_argument('--seeds', type=int, default=8)
    words.add_argument('--first', type=int, default=1)
    words.add_argument('--program')
    words = words.parse_args()
    trial.begin(words.program, 3600)
    answers, failed = 0, []
    for call, *what in jobs(words.seeds, words.first):
        count, faults = call(*what)
        answers, failed = answers + count, failed + faults
        for name, got, wanted in faults:
            print(f'{name}\n  {str(got)[:600]}\n  {str(wanted)[:600]}')
    print(f'{answers - len(failed)} passed, {len(failed)} failed')
    return 1 if failed else 0


if __name__ == '__main__':
    sys.exit(main())
