"""The table of docs/CONTRACTS.md: each public call with its clauses, read from the sources.

`docs/make_contracts` writes the page; `checks/run` looks whether the page is what the sources say, and the drawings what
`docs/draw` draws. A call is public where `lib.rt` has it or gives its name, its type or its module on; the functions of a public
trait stand with the trait, and with a type only where they promise more. A short clause without a name is shown itself. The tests named are those of qd_tests and qds_tests, or of the
crate, in whose text, or in that of the helpers that they call, the call's name stands, and that of its type."""
import pathlib
import re
import subprocess
import tempfile

TOP = pathlib.Path(__file__).resolve().parent.parent
PAGE = TOP / 'docs' / 'CONTRACTS.md'
FUNCTION = re.compile(r'^(?P<indent> *)(?P<public>pub )?(?:pub\(crate\) )?fn (?P<name>\w+)', re.M)
BLOCK = re.compile(r'^(?P<public>pub )?(?P<kind>trait|impl)\b(?P<generics><[^{]*?>)?\s+(?P<head>[^{]*?)\s*(?:where[^{]*)?\{?$', re.M)
CLAUSE = re.compile(r'^\s*ensures (?P<name>\w+ )?\{ ?(?P<text>.*?)\}?;?$(?=\s*(?:ensures|requires|\Z))', re.M | re.S)
HELPER = re.compile(r'(?<![.:\w])(?:[a-z_]\w*::)*(\w+)(?:::<[^(]*>)?\(')
# What tries a crate on the built program: files of checks/, where they are there.
TRIED = {
    'qd_decimal': 'tables/numbers.txt tables/counts-*.txt', 'qd_scheme': 'tables/symbols.txt tables/schemes.txt', 'qd_line': 'tables/runs.txt hostile.py',
    'qd_flags': 'tables/flags.txt tables/history.txt', 'qd_grammar': 'tables/lines-*.txt', 'qd_text': 'tables/lines-*.txt text_rules.py', 'qd_table': 'tables/scripts.txt cases',
    'qd_ticker': 'tables/ticker.txt random_scripts.py feed_rules.py', 'qd_stream': 'tables/stream.txt random_scripts.py feed_rules.py', 'qd_hist_key': 'tables/history.txt random_history.py',
    'qd_hist_feed': 'tables/history.txt random_history.py', 'qd_history': 'tables/history.txt random_history.py', 'qd_words': 'tables/words.txt tables/runs.txt',
    'qd_scheme_file': 'tables/schemes.txt tables/runs.txt', 'qd_items': 'tables/runs.txt hostile.py', 'qd_check': 'tables/runs.txt hostile.py',
    'qd_replay': 'tables/scripts.txt hostile.py', 'qds_tools': 'tables/runs.txt cases', 'qds_net': 'cases peers.py', 'qds': 'cases live.py hostile.py'}
TESTS = ('qd_link_tests', 'qds_net_tests', 'qd_tests', 'qds_tests')
SHORT, NAMELESS = 70, 'one without a name'
TEST = re.compile(r'#\[test\]\s*(?:#\[[^\]]*\]\s*)*(?:pub )?fn (?P<name>\w+)')


def crates():
    """The crates in the order of crates.txt."""
    lines = (TOP / 'crates.txt').read_text().split('\n')
    return [line.split(':')[0] for line in lines if line and not line.startswith('#')]


def exported(lib):
    """The names that a crate has or gives on at its top, and its public modules."""
    names = set(re.findall(r'^pub (?:fn|struct|enum|trait) (\w+)', lib, re.M))
    for use in re.findall(r'^pub use ([^;]+);', lib, re.M):
        names.update(re.findall(r'\w+', use.split('::')[-1] if '{' not in use else use[use.index('{'):]))
    return names, set(re.findall(r'^pub mod (\w+)', lib, re.M))


def test_modules(lib):
    return set(re.findall(r'#\[cfg\(test\)\]\s*mod (\w+)', lib))


def files(crate):
    """The files of code of a crate, and those of its tests."""
    top = TOP / 'crates' / crate / 'src'
    lib = (top / 'lib.rt')
    tests = test_modules(lib.read_text()) if lib.exists() else set()
    code, tested = [], []
    for path in sorted(top.rglob('*.rt')):
        first = path.relative_to(top).parts[0].removesuffix('.rt')
        (tested if first in tests else code).append(path)
    return code, tested


def head_of(text, start):
    """What stands from the name of a function to its body or its end."""
    lines = []
    for line in text[start:].split('\n'):
        if line.strip() in ('{', '{}') or (line.endswith(' {') and 'ensures' not in line):
            break
        lines.append(line)
        if line.endswith(';'):
            break
    return '\n'.join(lines)


def clauses_of(head):
    """The clauses of a function: the name of each, or the text of a short one that has none."""
    found = []
    for clause in CLAUSE.finditer(head):
        text = ' '.join(clause['text'].split())
        found.append(clause['name'].strip() if clause['name'] else text if len(text) <= SHORT and '|' not in text else NAMELESS)
    return found


def without_bounds(head):
    """The head of a block behind its parameters, whose bounds may have angles of their own."""
    if not head.startswith('<'):
        return head
    depth = 0
    for place, letter in enumerate(head):
        depth += {'<': 1, '>': -1}.get(letter, 0)
        if depth == 0:
            return head[place + 1:].lstrip()
    return head


def owner_at(text, start):
    """The trait or the type around a place, with whether it is a trait, or the impl of one."""
    owner = None
    for block in BLOCK.finditer(text, 0, start):
        owner = block
    if owner is None:
        return None
    head = without_bounds(f"{owner['generics'] or ''} {owner['head']}".strip())
    if owner['kind'] == 'trait':
        return re.match(r'\w+', head)[0], 'trait', bool(owner['public'])
    if ' for ' in head:
        return re.match(r'(?:\w+::)*(\w+)', head.split(' for ')[1])[1], 'of a trait', False
    return re.match(r'(?:\w+::)*(\w+)', head)[1], 'type', True


def calls(crate):
    """The public calls of a crate, in the order of its files, each with its clauses."""
    top = TOP / 'crates' / crate / 'src'
    lib = top / 'lib.rt'
    if not lib.exists():
        return
    names, modules = exported(lib.read_text())
    for path in files(crate)[0]:
        text = path.read_text()
        for function in FUNCTION.finditer(text):
            clauses = clauses_of(head_of(text, function.start()))
            if not clauses:
                continue
            name = function['name']
            if not function['indent']:
                if function['public'] and (name in names or path.stem in modules):
                    yield (f'{path.stem}::{name}' if path.stem in modules else name), clauses, None
                continue
            owner = owner_at(text, function.start())
            if owner is None or owner[0] not in names:
                continue
            if owner[1] != 'type' or function['public']:
                yield f'{owner[0]}::{name}', clauses, owner[0] if owner[1] != 'trait' else None


def bodies(paths):
    """The functions of the files of tests, by file and name, with their texts; and which of them are tests."""
    found, tests = {}, []
    for path in paths:
        text = path.read_text()
        starts = [it for it in FUNCTION.finditer(text)] + [None]
        for this, behind in zip(starts, starts[1:]):
            found[path.stem, this['name']] = text[this.start():behind.start() if behind else len(text)]
        tests += [(path.stem, name) for name in TEST.findall(text)]
    return found, tests


def reached(test, found):
    """The text of a test and of the helpers that it calls, in its own file or in one that alone has a helper of the name."""
    seen, todo = {test}, [test]
    while todo:
        here = todo.pop()
        for called in HELPER.findall(found[here]):
            there = [it for it in found if it[1] == called]
            helper = (here[0], called) if (here[0], called) in found else there[0] if len(there) == 1 else None
            if helper and helper not in seen:
                seen.add(helper)
                todo.append(helper)
    return '\n'.join(found[it] for it in seen)


def naming(call, kind, tests):
    """The tests that name a call; of a method those that name its type too."""
    owner, _, name = call.rpartition('::')
    spelled = re.compile(rf'\b{owner}(?:::<[^(]*>)?::{name}\(|\.{name}\(' if owner[:1].isupper() else rf'\b{name}\(')
    return [test for test, text in tests if spelled.search(text) and (kind is None or re.search(rf'\b{kind}\b', text))]


def wrong_bodies(crate):
    gate = len(list((TOP / 'crates' / crate / 'must-fail').glob('*.edit')))
    planted = len(list((TOP / 'checks' / 'planted' / crate).glob('*.edit')))
    return gate, planted


def tests_of(crate):
    """The tests of a crate, each with the text that it reaches."""
    found, tests = bodies(sum(files(crate), []) if crate in TESTS else files(crate)[1])
    return [(test[1], reached(test, found)) for test in tests if test in found]


def section(crate):
    texts = tests_of(crate) + [it for name in TESTS if name != crate for it in tests_of(name)]
    gate, planted = wrong_bodies(crate)
    lines = [f'## {crate}', '']
    tried = [f'`checks/{pattern}`' for pattern in TRIED.get(crate, '').split() if any((TOP / 'checks').glob(pattern))]
    lines += [f'Wrong bodies: {gate} in the gate, which refuses them' + (f'; {planted} in checks/planted.' if planted else '.')
              + (f' On the program: {", ".join(tried)}.' if tried else ''), '']
    rows = list(calls(crate))
    if not rows:
        return lines + ['No public call with a contract.', '']
    lines += ['| Call | Clauses | A test that names it |', '|---|---|---|']
    for call, clauses, kind in rows:
        named = naming(call, kind, texts)
        test = f'`{named[0]}`' + (f' and {len(named) - 1} more' if len(named) > 1 else '') if named else '–'
        told = ', '.join(it if it == NAMELESS else f'`{it}`' for it in clauses)
        lines.append(f'| `{call}` | {told} | {test} |')
    return lines + ['']


def page():
    """The page as the sources have it."""
    lines = ['# Each public call and its clauses', '',
             'Made by `docs/make_contracts` from the sources; `checks/run` looks whether it is still what they say. What the clauses mean together'
             ' is told in [PROOFS.md](PROOFS.md), the words that they use in [MODEL.md](MODEL.md); a clause itself stands in the file of the call,'
             ' behind `ensures`. The tests named stand in `qd_tests` and `qds_tests`: one that names a call shows it at work and proves nothing, and where the contract says all there is none. Behaviour over many cases is tried on the built program, by what stands behind the words "On the program".', '']
    return '\n'.join(lines + [line for crate in crates() for line in section(crate)]).rstrip('\n') + '\n'


def undrawn():
    """The drawings of docs/ that are not what docs/draw draws."""
    with tempfile.TemporaryDirectory() as place:
        subprocess.run([TOP / 'docs' / 'draw', place], check=True, timeout=60)
        drawn = sorted(pathlib.Path(place).glob('*.svg'))
        return [it.name for it in drawn if not (TOP / 'docs' / it.name).exists() or it.read_bytes() != (TOP / 'docs' / it.name).read_bytes()], len(drawn)


def unversioned():
    """The pages that should name the version of VERSION and do not."""
    version = (TOP / 'VERSION').read_text().strip()
    return [name for name in ('README.md', 'CHANGELOG.md', 'docs/qds.1') if version not in (TOP / name).read_text()]


def unkept():
    """The bodies that README.md shows as refused and that no wrong body of the repository has."""
    edits = [path.read_text() for place in ('crates/*/must-fail/*.edit', 'checks/planted/*/*.edit') for path in TOP.glob(place)]
    shown = re.findall(r'^    refused: +(.+)$', (TOP / 'README.md').read_text(), re.M)
    return [it for it in shown if not any(re.search(r'^new: *' + re.escape(it) + '$', edit, re.M) for edit in edits)]


def try_all():
    """Whether docs/CONTRACTS.md is what the sources say, each drawing what docs/draw draws, and what README.md shows so."""
    old, drawings = undrawn()
    failed = [(name, 'is not what the script draws', 'docs/draw draws it anew') for name in old]
    failed += [(name, 'does not name the version', 'VERSION') for name in unversioned()]
    failed += [('README.md: a refused body', 'is no wrong body of the repository', it) for it in unkept()]
    if not PAGE.exists() or PAGE.read_text() != page():
        failed.append(('CONTRACTS.md', 'is not what the sources say', 'docs/make_contracts writes it anew'))
    return 5 + drawings - len(failed), failed
