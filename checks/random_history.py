#!/usr/bin/env python3
"""Runs random scripts of the history through the built program, and has each TAKE judged by history_rules.

    checks/random_history.py [--seeds N] [--first N] [--program FILE]

A script that failed is told with its seed, the call and the rule; the seeds are fixed. Then comes 'N passed, M failed', and how often
what the scripts are for came up."""
import argparse
import collections
import pathlib
import random
import sys

sys.dont_write_bytecode = True
import trial
from history_rules import BEGIN, END, Event, MODE, REMOVE, SNIP, TX_PENDING, World, Wrong, require
from text_rules import BUILTIN as BUILTIN_RECORDS, Definition, Fault, Field, description, number, spelled

TOP = pathlib.Path(__file__).resolve().parent.parent
CALLS = 400
# base: what each index is above; factor: what each cell is a multiple of
Setup = collections.namedtuple('Setup', 'definitions keys agents base factor')
BUILTIN = Setup(BUILTIN_RECORDS, [('Candle', 'A'), ('Candle', 'B'), ('Order', 'A'), ('Candle', 'C')], range(4), 0, 1)
# Records beyond the tenth with fine fractions, long symbols that differ at their end, and links, indexes and cells near their greatest.
OWN = [Definition(f'R{n}', True, (Field('P', 9), Field('Q', None), Field('S', n % 10))) for n in range(13)]
WIDE = Setup(OWN, [('R10', 'A' * 63 + end) for end in 'AB'] + [('R11', 'A' * 64), ('R12', 'B' * 62)], (0, 99, 100, 127), 2**53 - 20, 10**12 + 123_456_789)
FAR = WIDE._replace(base=2**63 - 40, factor=-(2**43 + 1))


def scales_of(setup, key):
    return next([field.scale for field in it.fields] for it in setup.definitions if it.name == key[0])


def draw_event(draw, cells, setup, width, index, flags):
    """An event with a cell of its own, or now and then with one that others have too."""
    cell = next(cells) if draw.random() < 0.9 else 7
    return Event(setup.base + index, flags | draw.choice([0] * 19 + [MODE]), (cell * setup.factor,) * width)


def draw_snapshot(draw, event):
    floor = draw.choice([0, 0, 10, 20, 30])
    last = draw.choice([END, END, END, SNIP, SNIP, END | SNIP]) | draw.choice([0, 0, REMOVE]) | draw.choice([0, 0, 0, TX_PENDING])
    if draw.random() < 0.1:
        return [event(floor, BEGIN | last)]
    falling = sorted({draw.randrange(40) for _ in range(draw.randrange(1, 8))}, reverse=True)
    events = [event(index, 0 if place else BEGIN) for place, index in enumerate(falling)]
    return events + [event(floor, last)] if draw.random() < 0.9 else events


def draw_changes(draw, event):
    events = [event(draw.randrange(40), draw.choice([0, 0, REMOVE]) | draw.choice([0, 0, TX_PENDING])) for _ in range(draw.randrange(1, 4))]
    return events + [event(draw.randrange(40), draw.choice([END, SNIP, BEGIN, 0]))] if draw.random() < 0.1 else events


def draw_events(draw, cells, setup, key):
    draw_some = draw_snapshot if draw.random() < 0.3 else draw_changes
    return [(key, event) for event in draw_some(draw, lambda *what: draw_event(draw, cells, setup, len(scales_of(setup, key)), *what))]


def draw_calls(draw, setup):
    """Calls as (kind, link, what): subscriptions with their limits, keys, events with their keys, or the most items of a TAKE."""
    cells = iter(range(100, 1_000_000))
    for _ in range(CALLS):
        agent, kind = draw.choice(setup.agents), draw.random()
        keys = draw.sample(setup.keys, draw.choice([1, 1, 2, 3]))
        if kind < 0.1:
            yield 'add', agent, [(key, setup.base + draw.choice([0, 5, 10, 15, 20, 30])) for key in keys]
        elif kind < 0.13:
            yield 'remove', agent, keys
        elif kind < 0.14:
            yield from [('remove', agent, keys) for agent in setup.agents]
        elif kind < 0.5:
            yield 'put', agent, [one for key in keys for one in draw_events(draw, cells, setup, key)]
        else:
            yield 'take', agent, draw.choice([1, 1, 2, 3, 5, 8, 40, 4096])


def line(*parts):
    return '\t'.join(map(str, parts)) + '\n'


def spelled_cells(setup, key, cells):
    return [spelled(cell, scale) for cell, scale in zip(cells, scales_of(setup, key))]


def script(setup, calls):
    text = line('==PROTOCOL', 1)
    for kind, agent, what in calls:
        text += line('==LINK', agent)
        if kind == 'add':
            text += line('==HISTORY_ADD_SUBSCRIPTION') + ''.join(line(*key, limit) for key, limit in what)
        elif kind == 'remove':
            text += line('==HISTORY_REMOVE_SUBSCRIPTION') + ''.join(line(*key) for key in what)
        elif kind == 'put':
            text += line('==HISTORY_DATA') + ''.join(line(*key, e.index, e.flags, *spelled_cells(setup, key, e.cells)) for key, e in what)
        else:
            text += line('==TAKE', 'HISTORY', what)
    return text + line('==END')


def event_of(setup, key, index, flags, *texts):
    scales = scales_of(setup, key)
    require(len(texts) == len(scales), 'an event with too few or too many cells')
    cells = tuple(number(text.encode(), 1, scale) for text, scale in zip(texts, scales))
    require(list(texts) == spelled_cells(setup, key, cells), 'a cell is not in its canonical form')
    return Event(int(index), int(flags), cells)


def answers(setup, output):
    """The link and the items of each TAKE."""
    lines = output.splitlines()
    require(lines[:1] == ['==PROTOCOL\t1'] and lines[-1:] == ['==END'], 'the output is not whole')
    found = []
    for text in lines[1:-1]:
        parts = text.split('\t')
        if parts[0] == '#LINK':
            found.append((int(parts[1]), []))
        elif not text.startswith('=='):
            key = (parts[0], parts[1])
            require(key in setup.keys, 'an item of a key that nobody has')
            found[-1][1].append((key, event_of(setup, key, *parts[2:])))
    return found


def judge(setup, calls, hcap, output):
    """Tells what came up, or raises Wrong."""
    world, found = World(hcap, setup.agents, setup.keys), iter(answers(setup, output))
    for place, (kind, agent, what) in enumerate(calls):
        if kind == 'add':
            for key, limit in what:
                world.add(agent, key, limit)
        elif kind == 'remove':
            for key in what:
                world.remove(agent, key)
        elif kind == 'put':
            for key, event in what:
                world.put(key, event)
        else:
            link, items = next(found, (None, []))
            require(link == agent, f'call {place}: no answer of link {agent}')
            try:
                world.take(agent, what, items)
            except Wrong as wrong:
                raise Wrong(f'call {place}, TAKE {what} of link {agent}: {wrong}') from wrong
    require(next(found, None) is None, 'more answers than TAKEs')
    return world.seen


def run(setup, hcap, text):
    scheme = ''.join(line(*description(it)) for it in setup.definitions).encode()
    ran = trial.run_beside({'scheme': scheme}, ['replay', '--hcap', str(hcap), *(['--scheme', 'scheme'] if setup is not BUILTIN else [])], text.encode())
    require((ran.status, ran.line) == (0, b''), f'status {ran.status}: {ran.line}')
    return ran.out.decode()


def drawn(seed):
    draw = random.Random(seed)
    hcap, setup = draw.choice([1, 2, 3, 4, 6, 9, 1024, 4096]), (BUILTIN, WIDE, BUILTIN, FAR)[seed % 4]
    return setup, hcap, list(draw_calls(draw, setup))


def try_seed(seed):
    """What came up in the seed's script, and None; or what is wrong with its answers."""
    setup, hcap, calls = drawn(seed)
    try:
        return judge(setup, calls, hcap, run(setup, hcap, script(setup, calls))), None
    except (Wrong, Fault, ValueError, TypeError, IndexError, KeyError) as wrong:
        return collections.Counter(), (f'random_history.py, seed {seed}, --hcap {hcap}', str(wrong), 'what the rules allow')


def try_script(seed):
    _, fault = try_seed(seed)
    return 1, [fault] if fault else []


def try_sweep(seed):
    """A snapshot of thousands of events, and TAKEs up to the greatest: what is given is the snapshot, piece by piece."""
    draw = random.Random(f'sweep {seed}')
    base = draw.choice((0, 2**53 - 4000, 2**63 - 1 - 40_000))
    indexes = sorted((base + index for index in draw.sample(range(1, 40_000), draw.choice((300, 4096, 4097, 9000)))), reverse=True) + [base]
    rows = [('Order', 'IBM', index, BEGIN if not place else END if index == base else 0, place, place, 1) for place, index in enumerate(indexes)]
    takes = [draw.choice((99, 101, 1000, 4095, 4096)) for _ in range(12)]
    text = line('==PROTOCOL', 1) + line('==HISTORY_ADD_SUBSCRIPTION') + line('Order', 'IBM', base) + line('==HISTORY_DATA') + ''.join(line(*row) for row in rows)
    wanted, given = line('==PROTOCOL', 1), 0
    for most in takes:
        some, given = rows[given:given + most], given + most
        text += line('==TAKE', 'HISTORY', most)
        wanted += line('#LINK', 0, 'HISTORY') + (line('==HISTORY_DATA') if some else '') + ''.join(line(*row) for row in some) + line('==HEARTBEAT')
    got = trial.run(['replay'], (text + line('==END')).encode())
    return 1, trial.differing(f'random_history.py, sweep {seed}', got, (0, (wanted + line('==END')).encode(), b''))


def jobs(seeds):
    return [(try_script, seed) for seed in range(1, seeds + 1)] + [(try_sweep, seed) for seed in range(seeds // 2)]


def main():
    words = argparse.ArgumentParser()
    words.add_argument('--seeds', type=int, default=16)
    words.add_argument('--first', type=int, default=1)
    words.add_argument('--program')
    words = words.parse_args()
    trial.begin(words.program, 36_000)
    failed, seen = 0, collections.Counter()
    for seed in range(words.first, words.first + words.seeds):
        found, fault = try_seed(seed)
        seen += found
        if fault:
            failed += 1
            print(f'{fault[0]}: {fault[1]}')
    print(f'{words.seeds - failed} passed, {failed} failed')
    print(', '.join(f'{what}: {times}' for what, times in sorted(seen.items())))
    return 1 if failed else 0


if __name__ == '__main__':
    sys.exit(main())
