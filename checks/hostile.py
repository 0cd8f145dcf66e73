#!/usr/bin/env python3
"""Runs the built program on hostile inputs, all from fixed seeds: random bytes, changed texts, floods of one byte,
words, scheme files.

    checks/hostile.py [--seeds N] [--program FILE]

Each run has to end with one of the program's statuses and the line that belongs to it, and runs on one text have to agree
with each other and with text_rules (`disagreement`). `checks/run` tries 40 seeds of each kind; this tries so many as are asked
for, and prints each input that failed. The last line is 'N passed, M failed'."""
import argparse
import functools
import pathlib
import random
import re
import sys

sys.dont_write_bytecode = True
import inputs
import text_rules
import trial
from trial import End, run

TOP = pathlib.Path(__file__).resolve().parent.parent
WHY = b'(Form|UnknownRecord|SchemeMismatch|Empty|BadByte|TooFine|TooLarge|BadSymbol|BadFlags|Order)'
REFUSALS = (
    rb'(scheme )?line \d+, place \d+: ' + WHY,
    rb'line \d+: (LineTooLong|BadStep|TooManyKeys|TooManySubs|HistoryFull)',
    rb'after line \d+: CutOff',
    rb'(scheme: )?TooMuch',
    rb'scheme line \d+: (LineTooLong|TooManyRecords|BadName|DuplicateName|TooManyFields|BadScale)',
)
LINES = {
    0: b'',
    1: b'qds: (' + b'|'.join(REFUSALS) + b')\n',
    2: b'qds: usage\n',
    3: b'qds: read fault\n',
    4: b'qds: write fault\n',
    5: b'qds: no memory\n',
    7: b'qds: spent\n',
}


def illegal(end):
    """Why an end is none that the program may have."""
    if end.status not in LINES:
        return f'status {end.status}'
    if not re.fullmatch(LINES[end.status], end.line):
        return f'status {end.status} with the line {end.line[:200]}'
    return None


def disagreement(text):
    """How the runs on a text contradict each other, or end as no run may."""
    check, fmt, replay = (run([command], text) for command in ('check', 'fmt', 'replay'))
    for end in (check, fmt, replay):
        if illegal(end):
            return illegal(end)
    for word, found, wanted in (('check', check, text_rules.checked(text)), ('fmt', fmt, text_rules.formatted(text))):
        if found != wanted:
            return f'{word}: {trial.differing(word, found, wanted)}'
    return not_canonical(fmt, replay)


def not_canonical(fmt, replay):
    """How what was printed is not read back."""
    if not fmt.out:
        return None
    text = fmt.out if fmt.status == 0 else fmt.out + inputs.END
    again = run(['fmt'], text)
    if again != (0, text, b''):
        return f'fmt of what fmt printed: {again}'
    if fmt.status == 0:
        of_items = run(['replay'], fmt.out)
        if of_items.out != replay.out or of_items.status != replay.status:
            return f'replay of the canonical lines: {of_items}, of the text: {replay}'
    printed = replay.out if replay.status == 0 else replay.out + inputs.END
    told = run(['check'], printed) if replay.out else End(0, b'', b'')
    return None if told.status == 0 else f'what replay prints is refused: {told}'


@functools.cache
def texts():
    """What the changed texts begin as."""
    found = [path.read_bytes() for path in sorted((TOP / 'checks/cases').glob('*/stdin'))]
    found += [path.read_bytes() for path in sorted((TOP / 'examples').glob('*.txt'))]
    return [text for text in found if 0 < len(text) < 10_000]


def texts_of(seed):
    """A noise, a script and two changed texts."""
    rng = random.Random(seed)
    yield f'noise {seed}', inputs.noise(rng)
    yield f'script {seed}', inputs.script(rng)
    yield f'changed {seed}', inputs.mutated(rng.choice(texts()), rng)
    yield f'changed script {seed}', inputs.mutated(inputs.script(rng), rng)


def floods():
    """One byte again and again, from the first line on and behind a right beginning."""
    for byte in (b'\n', b'\r', b'\t', b'\0', b'#', b'=', b'x', b'\xff'):
        yield f'flood of {byte}', byte * 300_000
        yield f'flood of {byte} behind a head', inputs.PROTOCOL + b'==TICKER_DATA\n' + byte * 300_000


def try_text(name, text):
    fault = disagreement(text)
    return [(name, fault, text)] if fault else []


def try_texts(seed):
    return 4, [fault for name, text in texts_of(seed) for fault in try_text(name, text)]


def try_flood(name, text):
    return 1, try_text(name, text)


def try_scheme(seed):
    """A refused scheme file prints nothing, and `check` and `fmt` tell the same of it."""
    scheme = inputs.scheme(random.Random(seed))
    check, fmt = (trial.run_beside({'scheme': scheme}, [word, '--scheme', 'scheme'], inputs.PROTOCOL + inputs.END) for word in ('check', 'fmt'))
    fault = illegal(check) or illegal(fmt) or ((check.status, check.line) != (fmt.status, fmt.line) and f'{check} and {fmt}')
    return 1, [(f'scheme {seed}', fault, scheme)] if fault else []


WORDS = ['check', 'fmt', 'replay', 'serve', '', '-', '--', '---', '-h', '--help', '--version', '--scheme', '--scheme=', '--scheme=-', '--schemes=a', '--cap', '--cap=', '--cap=0', '--cap=1',
         '--cap=4096', '--cap=4097', '--cap=-1', '--cap=1.0', '--cap=00000001', '--cap=' + '9' * 5000, '--hcap', '--hcap=4096', '--hcap=0', '--stripes', '--stripes=4', '--stripes=3', '0', '1', '/', '/dev/null', '/proc/self/mem',
         'no/such/file', 'x' * 5000, 'caf\u00e9', b'\xff', b'--cap=\xc3', 'a=b', '=', '--=', '--cap==1']


def try_words(seed):
    """Up to five words; mostly a command first. One that is not UTF-8 is refused whatever the others are."""
    rng = random.Random(seed)
    first = rng.choice(WORDS[:3]) if rng.random() < 0.9 else rng.choice(WORDS)
    words = [first] + [rng.choice(WORDS) for _ in range(rng.randrange(5))]
    end = run(words, inputs.PROTOCOL + inputs.END)
    fault = illegal(end)
    if not fault and any(isinstance(word, bytes) for word in words) and end != (2, b'', b'qds: usage\n'):
        fault = f'a word that is not UTF-8: {end}'
    return 1, [(f'words {seed}', fault, repr(words))] if fault else []


def jobs(seeds):
    """Each tells how many inputs there were; what is wrong with the failed ones, and their bytes."""
    found = [(try_flood, name, text) for name, text in floods()]
    return found + [(call, seed) for call in (try_texts, try_scheme, try_words) for seed in range(seeds)]


def main():
    words = argparse.ArgumentParser()
    words.add_argument('--seeds', type=int, default=40)
    words.add_argument('--program')
    words = words.parse_args()
    trial.begin(words.program, 36_000)
    inputs_tried, failed = 0, []
    for call, *what in jobs(words.seeds):
        count, faults = call(*what)
        inputs_tried, failed = inputs_tried + count, failed + faults
        for name, fault, text in faults:
            print(f'{name}: {fault}\n  {text[:2000]}')
    print(f'{inputs_tried - len(failed)} passed, {len(failed)} failed')
    return 1 if failed else 0


if __name__ == '__main__':
    sys.exit(main())
