"""The text form as docs/FORMAT.md has it, read by a plain program, for judging what another one answers.

`Text` reads a text of a file line by line: an item with its canonical line, nothing for a skipped line, or the first fault,
as `line 5, place 17: TooFine`. It keeps what the page speaks of, and looks at one part after another."""
import collections
import re

LONGEST = 4096
INDEX_MOST, COUNT_MOST, FLAGS_MOST = 2**63 - 1, 2**64 - 1, 255
FLAGS_REFUSED = 0x20 | 0x80

Field = collections.namedtuple('Field', 'name scale')     # scale None: a whole number
Definition = collections.namedtuple('Definition', 'name is_history fields')
Item = collections.namedtuple('Item', 'kind line what')

BUILTIN = [
    Definition('Quote', False, (Field('BidPrice', 4), Field('BidSize', None), Field('AskPrice', 4), Field('AskSize', None))),
    Definition('Trade', False, (Field('Price', 4), Field('Size', None), Field('Volume', None))),
    Definition('Candle', True, (Field('Open', 4), Field('High', 4), Field('Low', 4), Field('Close', 4), Field('Volume', None))),
    Definition('Order', True, (Field('Price', 4), Field('Size', None), Field('Side', None))),
]
COLLECTORS = ('TICKER', 'STREAM', 'HISTORY')
HEADS = [b'TICKER_DATA', b'STREAM_DATA', b'HISTORY_DATA', b'STREAM_LOST']
HEADS += [f'{kind}_{what}_SUBSCRIPTION'.encode() for kind in COLLECTORS for what in ('ADD', 'REMOVE')]
# Behind each control word: numbers, and words of a list.
WORDS = {b'HEARTBEAT': [], b'END': [], b'TIME': [int], b'LINK': [int], b'TAKE': [COLLECTORS, int], b'NODE': [int, int], b'AT': [int, int], b'PUMP': [int],
         b'MOVE': [int, ('UP', 'DOWN'), int]}


class Fault(Exception):
    """What is wrong with a line, and the place in it; no place where the line as a whole is wrong."""

    def __init__(self, why, place=None):
        super().__init__(why, place)
        self.why, self.place = why, place


def description(definition):
    """The parts of a record's description."""
    kinds = [field.name + ':' + ('i' if field.scale is None else f'd{field.scale}') for field in definition.fields]
    return ['=' + definition.name] + ['*'] * definition.is_history + kinds


def number(text, place, scale=None, signed=True, most=None):
    """The number that a text is; a decimal one times 10 to the scale."""
    if not text:
        raise Fault('Empty', place)
    digits = re.match(rb'-?' if signed else b'', text).end()
    at = digits
    point = None
    while at < len(text):
        byte = text[at:at + 1]
        if byte in b'0123456789':
            at += 1
        elif byte == b'.' and scale is not None and point is None and at > digits:
            point = at
            at += 1
        else:
            raise Fault('BadByte', place + at)
    if at == digits:
        raise Fault('BadByte', place + at)
    whole, fraction = (text[digits:], b'') if point is None else (text[digits:point], text[point + 1:])
    scale = scale or 0
    for past, digit in enumerate(fraction[scale:]):
        if digit != ord('0'):
            raise Fault('TooFine', place + point + 1 + scale + past)
    value = int(whole + fraction[:scale].ljust(scale, b'0'))
    value = -value if text.startswith(b'-') else value
    least, most = (-2**63, 2**63 - 1) if most is None else (0, most)
    if not least <= value <= most:
        raise Fault('TooLarge', place)
    return value


def spelled(value, scale):
    """The canonical text of a number."""
    whole, fraction = divmod(abs(value), 10**(scale or 0))
    fraction = str(fraction).rjust(scale, '0').rstrip('0') if scale else ''
    return ('-' if value < 0 else '') + str(whole) + ('.' + fraction if fraction else '')


def symbol(text, place):
    if not text:
        raise Fault('BadSymbol', place)
    for at, byte in enumerate(text[:64]):
        if not 0x21 <= byte <= 0x7E or (at == 0 and byte in b'=#'):
            raise Fault('BadSymbol', place + at)
    if text == b'"':
        raise Fault('BadSymbol', place)
    if len(text) > 64:
        raise Fault('BadSymbol', place + 64)
    return text.decode()


class Parts:
    """The parts of a line, taken one after another."""

    def __init__(self, line):
        self.parts, self.place, self.end = line.split(b'\t'), 1, len(line) + 1

    def next(self):
        """The next part with its place."""
        if not self.parts:
            raise Fault('Form', self.end)
        part, place = self.parts.pop(0), self.place
        self.place += len(part) + 1
        return part, place

    def done(self):
        if self.parts:
            raise Fault('Form', self.place)


class Text:
    """A text of a file while it is read."""

    def __init__(self, definitions=BUILTIN):
        self.definitions = {definition.name.encode(): definition for definition in definitions}
        self.begun, self.message, self.time = False, None, 0

    def read(self, line):
        """The item of a line, None where it is skipped."""
        if not line or line.startswith(b'#'):
            return None
        parts = Parts(line)
        if not self.begun or line.split(b'\t')[0] == b'==PROTOCOL':
            return self.protocol(parts)
        if line.startswith(b'=='):
            return self.control(parts)
        return self.describe(parts) if line.startswith(b'=') else self.body(parts)

    def protocol(self, parts):
        word, _ = parts.next()
        if self.begun or word != b'==PROTOCOL':
            raise Fault('Order', 1)
        version, place = parts.next()
        if version != b'1':
            raise Fault('Form', place)
        parts.done()
        self.begun = True
        return Item('PROTOCOL', '==PROTOCOL\t1', None)

    def control(self, parts):
        word = parts.next()[0][2:]
        if word in HEADS:
            parts.done()
            self.message = word.decode()
            return Item('head', '==' + self.message, self.message)
        if word not in WORDS:
            raise Fault('Form', 3)
        what = []
        for kind in WORDS[word]:
            part, place = parts.next()
            if kind is int:
                what.append(number(part, place, signed=False, most=INDEX_MOST))
            elif part.decode(errors='replace') in kind:
                what.append(part.decode())
            else:
                raise Fault('Form', place)
        if word == b'TIME':
            if what[0] < self.time:
                raise Fault('Order', 1)
        parts.done()
        if word == b'TIME':
            self.time = what[0]
        return Item(word.decode(), '\t'.join(['==' + word.decode(), *map(str, what)]), what)

    def describe(self, parts):
        name, _ = parts.next()
        if name[1:] not in self.definitions:
            raise Fault('UnknownRecord', 2)
        wanted = description(self.definitions[name[1:]])
        for want in wanted[1:]:
            if not parts.parts:
                raise Fault('SchemeMismatch', parts.end)
            part, place = parts.next()
            if part != want.encode():
                raise Fault('SchemeMismatch', place)
        if parts.parts:
            raise Fault('SchemeMismatch', parts.place)
        return Item('description', '\t'.join(wanted), None)

    def body(self, parts):
        if self.message is None:
            raise Fault('Order', 1)
        name, _ = parts.next()
        definition = self.definitions.get(name)
        if definition is None:
            raise Fault('UnknownRecord', 1)
        if self.message.startswith('HISTORY') and not definition.is_history:
            raise Fault('Form', 1)
        key = (definition.name, symbol(*parts.next()))
        what, texts = self.numbers(parts, definition)
        parts.done()
        return Item(self.message, '\t'.join([*key, *texts]), (key, what))

    def numbers(self, parts, definition):
        """The numbers behind a key, and their canonical texts."""
        what = []
        if self.message == 'HISTORY_ADD_SUBSCRIPTION':
            what = [number(*parts.next(), signed=False, most=INDEX_MOST)]
        elif self.message == 'STREAM_LOST':
            part, place = parts.next()
            what = [number(part, place, signed=False, most=COUNT_MOST)]
            if what == [0]:
                raise Fault('Form', place)
        elif self.message == 'HISTORY_DATA':
            what = [number(*parts.next(), signed=False, most=INDEX_MOST)]
            part, place = parts.next()
            what.append(number(part, place, signed=False, most=FLAGS_MOST))
            if what[1] & FLAGS_REFUSED:
                raise Fault('BadFlags', place)
        texts = [str(value) for value in what]
        if self.message.endswith('DATA'):
            for field in definition.fields:
                what.append(number(*parts.next(), scale=field.scale))
                texts.append(spelled(what[-1], field.scale))
        return tuple(what), texts


def lines_of(text):
    """The lines of a text in order, each without its line feed and a carriage return before that; Fault where one is too
    long, and None behind the last line."""
    start = 0
    while True:
        end = text.find(b'\n', start)
        if (len(text) if end < 0 else end) - start > LONGEST:
            yield Fault('LineTooLong')
            return
        if end < 0:
            yield None
            return
        line = text[start:end]
        yield line[:-1] if line.endswith(b'\r') else line
        start = end + 1


def told(place, fault):
    """The line on standard error for a fault of a line."""
    where = f'line {place}' + (f', place {fault.place}' if fault.place else '')
    return f'qds: {where}: {fault.why}\n'.encode()


def items_of(text, definitions=BUILTIN):
    """The items of a text with the numbers of their lines, up to END; at last (line, None, what is told), where something is wrong."""
    reader, place = Text(definitions), 0
    for line in lines_of(text):
        if line is None:
            yield place, None, f'qds: after line {place}: CutOff\n'.encode()
            return
        place += 1
        try:
            if isinstance(line, Fault):
                raise line
            item = reader.read(line)
        except Fault as fault:
            yield place, None, told(place, fault)
            return
        if item is not None:
            yield place, item, None
            if item.kind == 'END':
                return


def checked(text, definitions=BUILTIN):
    """What `check` answers."""
    count = 0
    for _, item, fault in items_of(text, definitions):
        if item is None:
            return 1, b'', fault
        count += 1
    return 0, b'items %d\n' % count, b''


def formatted(text, definitions=BUILTIN):
    """What `fmt` answers."""
    out = []
    for _, item, fault in items_of(text, definitions):
        if item is None:
            return 1, ''.join(out).encode(), fault
        out.append(item.line + '\n')
    return 0, ''.join(out).encode(), b''
