"""Tries the program on the tables of checks/tables/.

The first line of a table says what it has, the second which of three kinds it is. Bytes are written as in Python.

- lines: a row `LINE -> WANT` says what a line is behind each of the heads `before: LINE / LINE / ..`, under the scheme of
  the lines `scheme: LINE`, or the built-in one. WANT is `same`, `skipped`, `reads LINE` for the canonical line, or
  `WHY at PLACE`.
- schemes: a row is `LINE / LINE / .. -> WANT`, where WANT is `scheme`, or what the line on the fault has behind
  `qds: scheme `.
- words: a row has words, each in brackets, that ask for nothing.
- scripts: rows begin with a mark. `=` says what a script shows, `$` has its words; `<` is a line of its input, `@` the
  name of a file and `+` a line of it, `>` a line that is printed, `!` the line on the fault. `<.` and `+.` are lines
  without a line feed."""
import codecs
import pathlib

import trial

TOP = pathlib.Path(__file__).resolve().parent.parent
TABLES = TOP / 'checks' / 'tables'
ARROW, BREAK = ' -> ', ' / '


def plain(text):
    """The bytes that a text of a table stands for."""
    return codecs.escape_decode(text.encode())[0]


def lines_of(text):
    return [plain(line) for line in text.split(BREAK)]


def qds(words, given=b'', files={}):
    return tuple(trial.run_beside(files, words, given))


def text_of(lines):
    return b''.join(line + b'\n' for line in lines)


def line_answer(before, line, want, ending):
    """What `fmt` answers over a text where a line stands behind these and before END."""
    number = len(before) + 1
    if ' at ' in want:
        why, place = want.split(' at ')
        return 1, text_of(before), f'qds: line {number}, place {place}: {why}\n'.encode()
    read = {'same': [line], 'skipped': []}.get(want)
    printed = [plain(want.removeprefix('reads '))] if read is None else read
    return 0, text_of(before + printed + ending), b''


def try_line(head, row):
    """What the program answers behind each head, and what it has to."""
    line, want = row.rsplit(ARROW, 1)
    line = plain(line)
    scheme = text_of(plain(text) for key, text in head if key == 'scheme')
    words, files = (['fmt', '--scheme', 'scheme'], {'scheme': scheme}) if scheme else (['fmt'], {})
    for before in [lines_of(text) for key, text in head if key == 'before'] or [[]]:
        ending = [] if line == b'==END' else [b'==END'] if before or want == 'same' else [b'==PROTOCOL\t1', b'==END']
        yield qds(words, text_of(before + [line] + ending), files), line_answer(before, line, want, ending)


def try_scheme(_head, row):
    lines, want = row.rsplit(ARROW, 1)
    got = qds(['check', '--scheme', 'scheme'], b'==PROTOCOL\t1\n==END\n', {'scheme': text_of(lines_of(lines))})
    yield got, (0, b'items 2\n', b'') if want == 'scheme' else (1, b'', f'qds: scheme {want}\n'.encode())


def try_words(_head, row):
    yield qds(words_of(row) if row != '(none)' else []), (2, b'', b'qds: usage\n')


def words_of(text):
    return [plain(word).decode() for word in text[1:-1].split('] [')]


def status_of(fault):
    return {'': 0, 'qds: usage': 2, 'qds: read fault': 3}.get(fault, 1)


def scripts_of(rows):
    """What each script shows, its words, its input, its files, and what it has to answer."""
    said = None
    for row in rows + ['= ']:
        mark, text = (row + ' ').split(' ', 1)
        text = text[:-1]
        if mark == '=':
            if said is not None:
                yield said, words, given, files, (status_of(fault), printed, text_of([fault.encode()] if fault else []))
            said, words, given, files, printed, fault = text, [], b'', {}, b'', ''
        elif mark == '$':
            words = words_of(text)
        elif mark in ('<', '<.'):
            given += plain(text) + (b'\n' if mark == '<' else b'')
        elif mark == '@':
            name = text
            files[name] = b''
        elif mark in ('+', '+.'):
            files[name] += plain(text) + (b'\n' if mark == '+' else b'')
        elif mark == '>':
            printed += plain(text) + b'\n'
        elif mark == '!':
            fault = text
        else:
            raise ValueError(f'no mark of a script: {row}')


def try_scripts(_head, rows):
    for said, words, given, files, wanted in scripts_of(rows):
        yield said, qds(words, given, files), wanted


def each_of(judge):
    """Tries one row after another."""
    def judges(head, rows):
        for row in rows:
            for got, wanted in judge(head, row):
                yield row, got, wanted
    return judges


JUDGES = {'lines': each_of(try_line), 'schemes': each_of(try_scheme), 'words': each_of(try_words), 'scripts': try_scripts}


def rows_of(path):
    """The kind of a table, its head and its rows."""
    _said, kind, *rest = path.read_text().rstrip('\n').split('\n')
    head = [tuple(line.split(': ', 1)) for line in rest if line.startswith(('before: ', 'scheme: '))]
    return kind, head, rest[len(head):]


def try_table(path):
    """How many rows were tried, and the failed ones."""
    kind, head, rows = rows_of(path)
    count, failed = 0, []
    for said, got, wanted in JUDGES[kind](head, rows):
        count += 1
        failed += trial.differing(f'{path.name}: {said}', got, wanted)
    return count, failed


def jobs():
    return [(try_table, path) for path in sorted(TABLES.glob('*.txt'))]
