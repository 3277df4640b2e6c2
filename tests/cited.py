#!/usr/bin/env python3
"""Checks that what the pages cite exists. A span of code that is one name has to be a name of this repository: a function, type, field,
constant or case of a source, a definition, law or sentence of specs/ and proofs/, an edit, a crate, a program, a file. A link has to lead
to a file, and names right behind it have to stand there. And every edit has to stand in docs/CONTRACTS.md. The landings, docs/PORT.md, docs/DESIGN-PASS.md and docs/LOOK-BACK.md
tell what was, and are left out.

  tests/cited.py    says what is missing, with status 1
"""
import glob, os, re, sys

os.chdir(os.path.dirname(os.path.dirname(os.path.abspath(__file__))))
PAGES = ['README.md'] + sorted(set(glob.glob('docs/*.md')) - {'docs/PORT.md', 'docs/DESIGN-PASS.md', 'docs/LOOK-BACK.md'})
# names that are not ours: the Rust's, the kit's, the language's, other programs', and placeholders of a text
OTHERS = set(open('tests/cited.txt', encoding='utf-8').read().split())
NAME = re.compile(r'[A-Za-z][\w·-]*')


def known():
    names = set()
    for path in glob.glob('crates/*/src/**/*.rt', recursive=True):
        names |= set(re.findall(r'\w+', re.sub(r'//.*', '', open(path, encoding='utf-8').read())))
    for path in glob.glob('crates/*/specs/*.antt') + glob.glob('crates/*/proofs/**/*.antt', recursive=True):
        names.add(os.path.basename(path)[:-5])
        for line in open(path, encoding='utf-8'):
            m = re.match(r'\s*(?:abbrev |unfoldable )?(?:pub )?(?:record |data |module )?([^\s:(){}]+) (?::|\(|\{)', line)
            if m:
                names.add(m[1])
    edits = {os.path.basename(p)[:-5] for p in glob.glob('crates/*/must-fail/*.edit')}
    crates = {os.path.basename(p) for p in glob.glob('crates/*')}
    for path in glob.glob('oracle/*') + glob.glob('bench/*') + glob.glob('tests/*') + glob.glob('include/*') + glob.glob('examples/*'):
        names.add(os.path.basename(path))
        if os.path.isfile(path) and not path.endswith('.strip'):
            names |= set(re.findall(r'\w+', open(path, encoding='utf-8', errors='replace').read()))
    return names | crates, edits


names, edits = known()
wrong = []
for page in PAGES:
    text = open(page, encoding='utf-8').read()
    for link in re.findall(r'\]\(([^)#\s]+)', text):
        if '://' not in link and not os.path.exists(os.path.join(os.path.dirname(page), link)):
            wrong.append(f'{page}: the link {link} leads nowhere')
    places = dict(re.findall(r'^\[([^\]]+)\]: (\S+)$', text, flags=re.M))
    behind = re.findall(r'\]\(([^)#\s]+)[^)]*\)((?:,? `[^`]+`)+)', text)
    behind += [(places[name], spans) for name, spans in re.findall(r'\[([^\]\n]+)\]((?:,? `[^`]+`)+)', text) if name in places]
    wrong += [f'{page}: [{name}] has no place' for name in re.findall(r'\[([a-z_]+/[A-Za-z_.]+)\](?![(:])', text) if name not in places]
    wrong += [f'{page}: nothing cites [{name}]' for name in places if text.count(f'[{name}]') < 2]
    for link, spans in behind:
        there = os.path.join(os.path.dirname(page), link)
        files = glob.glob(there + '/**/*', recursive=True) if os.path.isdir(there) else [there]
        held = '\n'.join([os.path.basename(f) for f in files] + [open(f, encoding='utf-8', errors='replace').read() for f in files if os.path.isfile(f)])
        for span in re.findall(r'`([^`]+)`', spans):
            word = re.split(r'::|\.', re.sub(r'\(.*\)$', '', span).strip())[-1]
            if NAME.fullmatch(word) and not re.search(r'(?<![\w-])' + re.escape(word) + r'(?![\w-])', held):
                wrong.append(f'{page}: `{span}` does not stand in {link}')
    for span in re.findall(r'`([^`\n]+)`', re.sub(r'```.*?```', '', text, flags=re.S)):
        word = re.sub(r'\(.*\)$', '', span).strip()
        if os.path.exists(word) or os.path.exists(os.path.join('docs', word)):
            continue
        parts = [p for p in re.split(r'::|/|\.', word) if p]
        if not parts or not all(NAME.fullmatch(p) for p in parts):
            continue
        for p in parts:
            if p not in names and p not in edits and p not in OTHERS:
                wrong.append(f'{page}: `{span}`: there is no {p}')
told = open('docs/CONTRACTS.md', encoding='utf-8').read()
wrong += [f'docs/CONTRACTS.md does not tell the edit {e}' for e in sorted(edits) if f'`{e}`' not in told]
print('\n'.join(dict.fromkeys(wrong)) or f'cited: {len(PAGES)} pages, {len(edits)} edits')
sys.exit(1 if wrong else 0)
