"""Checks the order of the crates and the number of their wrong bodies.

In crates.txt each crate stands after those that it names, and README.md and docs/MAP.md list the crates in its order. At
most five edits stand in a crate's must-fail/: all others are data in checks/planted/."""
import pathlib
import re

TOP = pathlib.Path(__file__).resolve().parent.parent
MOST_EDITS = 5


def section(page, title):
    """The text of a page from a title up to the next one."""
    text = (TOP / page).read_text()
    found = re.search(rf'^## {title}.*?(?=^## |\Z)', text, re.M | re.S)
    return found[0] if found else ''


def workspace():
    """The crates of crates.txt in order, each with what it stands on."""
    lines = [line for line in (TOP / 'crates.txt').read_text().split('\n') if line and not line.startswith('#')]
    return {name: rest.split() for name, rest in (line.split(':') for line in lines)}


def try_all():
    """How many crates and lists passed, and the failed ones."""
    crates = workspace()
    names, results = list(crates), []
    for place, name in enumerate(names):
        late = [it for it in crates[name] if it in names[place:]]
        results.append((f'crates.txt: {name} stands on what comes later', late, []))
        edits = len(list((TOP / 'crates' / name / 'must-fail').glob('*.edit')))
        results.append((f'{name}: must-fail edits', max(edits, MOST_EDITS), MOST_EDITS))
    rooms = re.findall(r'^\| `(\w+)` \|', section('docs/MAP.md', 'The rooms'), re.M)
    listed = list(dict.fromkeys(it for it in re.findall(r'`(\w+)`', section('README.md', 'The crates')) if it in crates))
    results += [('docs/MAP.md: the rooms', rooms, names), ('README.md: the crates', listed, names)]
    failed = [it for it in results if it[1] != it[2]]
    return len(results) - len(failed), failed
