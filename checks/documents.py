"""Runs the commands that README.md and docs/ print and the mistakes of docs/FORMAT.md, and looks up the names that they cite.

A command stands in an indented block behind `$ `; what follows it, up to the next one or to the end of the block, is what
it has to print. The commands of one page run one after another in one folder, in which `qds` and `examples/` lie as at the
top of the repository."""
import os
import pathlib
import re
import shutil
import subprocess
import tempfile

import trial

TOP = pathlib.Path(__file__).resolve().parent.parent
PAGES = [TOP / 'README.md', *sorted((TOP / 'docs').glob('*.md'))]


def blocks(text):
    """The indented blocks of a page, each a list of lines without the indent."""
    block = []
    for line in text.split('\n') + ['']:
        if line.startswith('    '):
            block.append(line[4:])
        elif block:
            yield block
            block = []


def commands(text):
    """The commands of a page, each with what it has to print."""
    for block in blocks(text):
        command, printed = None, []
        for line in block + ['$ ']:
            if not line.startswith('$ '):
                printed.append(line + '\n')
                continue
            if command:
                yield command, ''.join(printed)
            command, printed = line[2:], []


def run_page(page):
    """Each command of a page that does not print what the page says: the command, what it printed, what it had to."""
    count, failed = 0, []
    with tempfile.TemporaryDirectory() as place:
        shutil.copytree(TOP / 'examples', pathlib.Path(place) / 'examples')
        os.symlink(trial.program(), pathlib.Path(place) / 'qds')
        for command, wanted in commands(page.read_text()):
            count += 1
            run = trial.run(['-c', command], program='bash', stdin=subprocess.DEVNULL, stderr=subprocess.STDOUT, cwd=place)
            got = run.out.decode(errors='replace') if isinstance(run.status, int) else run.status
            if got != wanted:
                failed.append((f'{page.name}: {command}', got, wanted))
    return count, failed


ROW = re.compile(r'^\| (?P<names>`[^|]+`) \|.*\| `(?P<file>qds?_\w+/specs/\w+\.antt)` \|$')


MISTAKE = re.compile(r'^\| `(?P<head>\w+)` \| `(?P<line>[^`]+)`[^|]*\| `(?P<why>\w+)` at (?P<place>\d+) \|$', re.M)


def mistakes():
    """The mistakes of docs/FORMAT.md that `check` tells otherwise."""
    count, failed = 0, []
    for row in MISTAKE.finditer((TOP / 'docs' / 'FORMAT.md').read_text()):
        text = f'==PROTOCOL\t1\n=={row["head"]}\n' + row['line'].replace(' ⇥ ', '\t') + '\n==END\n'
        wanted = (1, b'', f'qds: line 3, place {row["place"]}: {row["why"]}\n'.encode())
        count += 1
        failed += trial.differing(f'FORMAT.md: {row["line"]}', trial.run(['check'], text.encode()), wanted)
    return count, failed


def undefined():
    """The rows of docs/MODEL.md that name a definition which the file beside it does not have."""
    passed, failed = 0, []
    for line in (TOP / 'docs' / 'MODEL.md').read_text().split('\n'):
        row = ROW.match(line)
        if not row:
            continue
        path = TOP / 'crates' / row['file']
        text = path.read_text() if path.exists() else ''
        for name in re.findall(r'`([^`]+)`', row['names']):
            if re.search(r'^\s*((abbrev|unfoldable) )?(pub )?((record|data) )?' + re.escape(name) + r'( |$)', text, re.M):
                passed += 1
            else:
                failed.append((f'MODEL.md: {name}', 'no such definition', row['file']))
    return passed, failed


def uncalled():
    """The calls `Type::function` of the pages that no file of the code has."""
    code = [path.read_text() for path in (TOP / 'crates').glob('*/src/**/*.rt')]
    passed, failed = 0, []
    for page in PAGES:
        for kind, name in sorted(set(re.findall(r'`([A-Z]\w+)::([a-z]\w+)', page.read_text()))):
            if any(f'fn {name}' in text and re.search(rf'\b{kind}\b', text) for text in code):
                passed += 1
            else:
                failed.append((f'{page.name}: {kind}::{name}', 'no such function', 'crates/*/src'))
    return passed, failed


def unlinked():
    """The links of the pages that lead nowhere."""
    passed, failed = 0, []
    for page in PAGES:
        for target in re.findall(r'\]\(([^)#:]+)\)', page.read_text()):
            if (page.parent / target).exists():
                passed += 1
            else:
                failed.append((f'{page.name}: a link', 'leads nowhere', target))
    return passed, failed


def jobs():
    """The runs of the program that the pages show."""
    return [(run_page, page) for page in PAGES] + [(mistakes,)]


def look_up():
    """How many names and links were found, and those that were not."""
    results = [undefined(), uncalled(), unlinked()]
    return sum(passed for passed, _ in results), [it for _, failed in results for it in failed]
