"""Holds docs/PUNCH-CODE.md to the definitions and to the golden cases; run it as  python3 docs/check-names.py

- Each definition that the page names as `File.name`, each file `File`, each path and each link is there.
- Each definition of the meaning is named on the page. In the last section a name stands behind that of its file.
- Each example is a golden case with the same text, setting and answer, and each case page-.. is an example.
- What docs/READING.md names in the same way is there, and so is what it names as crate::..::name in the code.
- README.md has the number of golden cases.
"""
import re
import sys
from pathlib import Path

ROOT = Path(__file__).resolve().parent.parent
CRATES = ROOT / 'crates'
DEFINITION = re.compile(r'^(?:abbrev |unfoldable )?pub (?:record |data )?(?!mod )([^\s:({]+)', re.M)
PAGE = 'docs/PUNCH-CODE.md'
INDEX = '## The definitions by file'
# how functions are proved, and statements about the definitions, which docs/READING.md names
NOT_MEANING = {'Tallying', 'Steady', 'Runs', 'WidePoints', 'CopyRuns', 'CopyBlocks', 'CopyPairs', 'MirrorBlocks', 'Refusals', 'Settings', 'Tools', 'Plates'}

missing = []


def defined():
    """The definitions of each file, and the files that make up the meaning."""
    paths = [p for crate in ('aries', 'sine', 'printing') for p in (CRATES / crate / 'specs').glob('*.antt')]
    files = {p.stem: set(DEFINITION.findall(p.read_text())) for p in paths if p.stem != 'Lib'}
    meaning = {p.stem for p in paths if 'printing' not in p.parts} - NOT_MEANING - {'Lib'} | {'Listing'}
    return files, meaning


def in_code(name):
    """A crate has a module, function, type, constant, field or variant of each name behind the crate's own."""
    crate, *parts = name.split('::')
    source = '\n'.join(p.read_text() for p in (CRATES / crate / 'src').rglob('*.rt'))
    shape = r'\b(?:fn|struct|enum|const|mod) %s\b|^    (?:pub )?%s\b[,:({]?'
    return all(re.search(shape % (part, part), source, re.M) for part in parts)


def names_of(page, files):
    """The pairs of file and name on a page; what is no definition is looked up at once."""
    text = re.sub(r'^```.*?^```', '', (ROOT / page).read_text(), flags=re.M | re.S)
    pairs, here, index = set(), None, False
    for line in text.split('\n'):
        index = index or line == INDEX
        head = re.match(r'- `(\w+)`', line)
        here = head.group(1) if index and head else here
        for token in re.findall(r'`([^`]+)`', line):
            full = re.fullmatch(r'([A-Z][a-z]\w*)\.([^\s\d]\S*)', token)
            if full:
                pairs.add(full.groups())
            elif index and here and token != here:
                pairs.add((here, token))
            elif page == PAGE and re.fullmatch(r'[A-Z][a-z][A-Za-z]+', token) and token not in files:
                missing.append('%s: no file %s' % (page, token))
            elif re.fullmatch(r'[a-z]\w*(::\w+)+', token) and not in_code(token):
                missing.append('%s: %s is not in the code' % (page, token))
            elif re.match(r'(crates|docs|plates|bindings)/', token) and not (ROOT / token).exists():
                missing.append('%s: no file %s' % (page, token))
        for link in re.findall(r'\]\(([^)#]+)', line):
            if '://' not in link and not (ROOT / page).parent.joinpath(link).exists():
                missing.append('%s: no file %s' % (page, link))
    for file, name in sorted(pairs):
        if name not in files.get(file, ()):
            missing.append('%s: no definition %s.%s' % (page, file, name))
    return pairs


def examples():
    """Each example of the page against its golden case."""
    page = (ROOT / PAGE).read_text()
    shown = re.findall(r'^Example `([\w-]+)`(?:, at setting (\d))?:\n.*?^```\n(.*?)^```$.*?^```\n(.*?)^```$', page, re.M | re.S)
    golden = re.split(r'^([\w-]+)\.nc (-?\d+) \d+\n', (CRATES / 'cases/stdout').read_text(), flags=re.M)
    answers = dict(zip(golden[1::3], zip(golden[2::3], golden[3::3])))
    for name, setting, text, answer in shown:
        file = CRATES / 'cases/data' / (name + '.nc')
        if not file.exists() or file.read_text() != text or answers.get(name) != (setting or '1', answer):
            missing.append('no golden case has the text, the setting and the answer of the example %s' % name)
    if 'golden cases, {:,} of them'.format(len(golden[1::3])) not in (ROOT / 'README.md').read_text():
        missing.append('README.md: there are {:,} golden cases'.format(len(golden[1::3])))
    for name in answers:
        if name.startswith('page-') and name not in [s[0] for s in shown]:
            missing.append('the case %s is no example of the page' % name)


files, meaning = defined()
named = names_of(PAGE, files)
names_of('docs/READING.md', files)
for file in sorted(meaning):
    lost = sorted(name for name in files[file] if (file, name) not in named)
    missing += ['%s.%s is not named on the page' % (file, name) for name in lost]
examples()
print('\n'.join(missing) if missing else '%d names, all there' % len(named))
sys.exit(1 if missing else 0)
