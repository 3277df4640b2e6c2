#!/usr/bin/env python3
"""Counts the lines that a reader has to believe: the equations and data types of specs/ that the contracts of public functions and the
sentences of claims/specs/Claims.antt and Ends.antt reach, with whatever these reach, and the structs and enums of src/ that specs/ speaks of. Comments,
blank lines and imports are not counted, and the types of definitions, which the check reads, are counted apart.

  tests/believed.py            how many, by crate
  tests/believed.py --names    each definition too
  tests/believed.py --most N   status 1 where it is more than N
"""
import collections, glob, os, re, sys

os.chdir(os.path.dirname(os.path.dirname(os.path.abspath(__file__))))
WORD = re.compile(r'[^\s(){}\[\],;"]+')
USE = re.compile(r'^(?:ghost )?use Rattle\.(\w+)\.specs\.([\w.]+?)(?:\.\{([^}]*)\}| as (\w+));?$')


def imports(text):
    """What the words of a file mean: a name, or a module under another name."""
    names, modules = {}, {}
    for line in text.splitlines():
        m = USE.match(line.strip())
        if not m or m[2].startswith('declared'):
            continue
        if m[4]:
            modules[m[4]] = (m[1], m[2])
        else:
            for item in m[3].split(','):
                name, _, other = item.strip().partition(' as ')
                names[other or name] = (m[1], m[2], name)
    return names, modules


def meant(word, names, modules, own):
    """The definition that a word of a file names, if any; fields may be taken of it, as in `none.count`."""
    first, *more = word.split('.')
    if first in names:
        return names[first]
    if first in own:
        return own[first]
    if more and first in modules:
        return modules[first] + (more[0],)
    return None


definitions, lines_of, cited = {}, {}, {}
for path in sorted(glob.glob('crates/*/specs/*.antt')):
    crate, module = path.split('/')[1], os.path.basename(path)[:-5]
    if module == 'Lib':
        continue
    text = open(path, encoding='utf-8').read()
    blocks = []
    for line in text.splitlines():
        if not line.strip() or line.lstrip().startswith('--') or re.match(r'(use|infix\w*) ', line):
            continue
        if re.match(r'(abbrev|unfoldable|pub|record|data|module)\b', line) or not blocks:
            blocks.append([])
        blocks[-1].append(line)
    for block in blocks:
        key = (crate, module, len(lines_of))
        lines_of[key] = block
        for line in block:
            d = re.match(r'\s*(?:(?:abbrev|unfoldable|pub) )*(?:record |data )?(\S+)', line)
            signature = re.match(r'\s*(?:(?:abbrev|unfoldable|pub) )*(\S+) :', line) or re.match(r'(?:pub )?(?:record|data) (\S+)', line)
            if signature:
                definitions.setdefault((crate, module, signature[1]), key)
                if '◌' in signature[1]:
                    definitions.setdefault((crate, module, signature[1].strip('◌')), key)
for (crate, module, n), block in lines_of.items():
    text = open(f'crates/{crate}/specs/{module}.antt', encoding='utf-8').read()
    names, modules = imports(text)
    names = {w.strip('◌'): v for w, v in names.items()}
    own = {name: (crate, module, name) for c, m, name in definitions if (c, m) == (crate, module)}
    found = set()
    for word in WORD.findall('\n'.join(block)):
        d = meant(word, names, modules, own)
        if d:
            d = d[:2] + (d[2].strip('◌') if d not in definitions else d[2],)
            if d in definitions:
                found.add(definitions[d])
    cited[crate, module, n] = found

# what the contracts of public functions cite
roots, contracts = set(), 0
for path in sorted(glob.glob('crates/*/src/**/*.rt', recursive=True)):
    if '/inner' in path or not os.path.exists('/'.join(path.split('/')[:2]) + '/src/lib.rt'):
        continue
    text = open(path, encoding='utf-8').read()
    names, modules = imports(text)
    for clause in re.findall(r'^\s*ensures(?: \w+)? \{ (.*?)\}$', text, re.M | re.S):
        contracts += clause.count('\n') + 1
        for word in WORD.findall(clause):
            d = meant(word, names, modules, {})
            if d in definitions:
                roots.add(definitions[d])
roots |= {key for key in lines_of if key[:2] in (('claims', 'Claims'), ('claims', 'Ends'))}
reached, todo = set(), list(roots)
while todo:
    key = todo.pop()
    if key not in reached:
        reached.add(key)
        todo += cited[key]

TYPE = re.compile(r'\s*(?:(?:abbrev|unfoldable|pub) )*(?!record|data)\S+ : ')


def types(block):
    """How many lines of a block say the type of a definition; a data type has none."""
    return 0 if re.match(r'(pub )?(record|data) ', block[0]) else sum(1 for line in block if TYPE.match(line) or line == 'unfoldable mutual')


count, typed = collections.Counter(), collections.Counter()
for key in sorted(reached, key=lambda k: k[2]):
    typed[key[0]] += types(lines_of[key])
    count[key[0]] += len(lines_of[key]) - types(lines_of[key])
    if '--names' in sys.argv:
        print(f'{key[0]}/{key[1]}: {lines_of[key][0]}')
# the types of the code
declared = set()
for path in glob.glob('crates/*/specs/*.antt'):
    declared |= set(re.findall(r'Rattle\.(\w+)\.specs\.declared\.(\w+)\.', open(path, encoding='utf-8').read()))
code = 0
for path in sorted(glob.glob('crates/*/src/**/*.rt', recursive=True)):
    text = open(path, encoding='utf-8').read()
    for name, fields in re.findall(r'^pub (?:struct|enum) (\w+)(?:<[^>]*>)? \{\n(.*?)^\}', text, re.M | re.S):
        if (path.split('/')[1], name) in declared:
            code += 1 + fields.count('\n')
claims = count.pop('claims', 0) + typed.pop('claims', 0)
for crate in sorted(count):
    print(f'{count[crate]:5} {crate}')
print(f'{code:5} types of the code')
total = sum(count.values()) + code
print(f'{total:5} lines of equations and data types ({sum(typed.values())} more say the types of definitions)')
print(f'{claims:5} lines of sentences in claims; {contracts} lines of contracts of public functions cite the definitions')
if '--most' in sys.argv and total > int(sys.argv[sys.argv.index('--most') + 1]):
    sys.exit('believed: more than that')
