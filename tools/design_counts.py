#!/usr/bin/env python3
"""design_counts [--places] [REV]: the places of docs/DESIGN-PASS.md in crates/*/src, by point, of a commit or of the tree.

A place is what one of the patterns below finds. They are plain and find too much rather than too little: a place that
is found and is right as it stands is in the page's table as kept, with its reason. Crate lunozhar_c is left out: it is
the C interface, each function one call."""
import collections, os, re, subprocess, sys

args = [a for a in sys.argv[1:] if a != '--places']
places = '--places' in sys.argv
top = os.path.dirname(os.path.dirname(os.path.abspath(__file__)))


def sources():
    if args:
        names = subprocess.run(['git', '-C', top, 'ls-tree', '-r', '--name-only', args[0]], capture_output=True, text=True).stdout.split()
        read = lambda n: subprocess.run(['git', '-C', top, 'show', f'{args[0]}:{n}'], capture_output=True, text=True).stdout
    else:
        names = subprocess.run(['git', '-C', top, 'ls-files'], capture_output=True, text=True).stdout.split()
        read = lambda n: open(os.path.join(top, n)).read() if os.path.exists(os.path.join(top, n)) else ''
    for n in names:
        if re.match(r'crates/[^/]+/(src/.*\.rt|proofs/.*/Answers\.antt)$', n) and not n.startswith('crates/lunozhar_c/'):
            yield n[len('crates/'):], read(n)


def bare(text):
    """The text with comments blanked."""
    return re.sub(r'//[^\n]*', lambda m: ' ' * len(m.group()), text)


FN = re.compile(r'\bfn (\w+)')


def functions(text):
    """(name, line, signature and clauses, body) of each function, of a text without comments."""
    for m in FN.finditer(text):
        i = m.end()
        depth = 0
        # the body is the first brace at the left edge or behind a result; clauses' braces stand behind a word
        while i < len(text):
            c = text[i]
            if c in '([':
                depth += 1
            elif c in ')]':
                depth -= 1
            elif c == ';' and depth == 0:
                break
            elif c == '{' and depth == 0:
                before = text[m.end():i].rstrip()
                clause = re.search(r'(requires|ensures)( \w+)?$', before)
                j, d = i, 0
                while j < len(text):
                    d += {'{': 1, '}': -1}.get(text[j], 0)
                    j += 1
                    if d == 0:
                        break
                if not clause:
                    yield m.group(1), text.count('\n', 0, m.start()) + 1, text[m.end():i], text[i:j]
                    break
                i = j
                continue
            i += 1


def structs(text):
    for m in re.finditer(r'\bstruct (\w+)[^{;(]*\{([^}]*)\}', text):
        fields = re.findall(r'(\w+)\s*:\s*([^,\n]+)', m.group(2))
        yield m.group(1), text.count('\n', 0, m.start()) + 1, fields


found = collections.OrderedDict()


def add(point, where):
    found.setdefault(point, []).append(where)


shapes, groups, clauses = collections.defaultdict(list), collections.defaultdict(list), collections.defaultdict(list)
for name, raw in sources():
    if name.endswith('.antt'):
        for m in re.finditer(r'^pub ([\w.-]+) : goal', raw, re.M):
            add('8 answers in proofs', f'{name}: {m.group(1)}')
        continue
    text = bare(raw)
    for s, line, fields in structs(text):
        bools = [f for f, t in fields if t.strip() == 'bool']
        if bools and len(bools) < len(fields):
            add('1a structs with a flag beside values', f'{name}:{line}: {s} ({", ".join(bools)})')
        if any(f == 'answer' for f, t in fields):
            add('1b structs with a number of RULES 2.1', f'{name}:{line}: {s}')
        arrays = [re.sub(r'.*; *', '', t) for f, t in fields if t.strip().startswith('[') or '&' in t and '[' in t]
        if len(arrays) != len(set(arrays)):
            add('6a parallel arrays in a struct', f'{name}:{line}: {s}')
        if arrays and any(re.match(r'(pong)?(count|size|len|length|used)$', f) for f, t in fields):
            add('6b an array with a length beside it', f'{name}:{line}: {s}')
    for m in re.finditer(r'^\s*(?:pub(?:\(crate\))? )?const (\w+): u8 = ', text, re.M):
        add('1c constants of a byte (numbers for kinds)', f'{name}:{text.count(chr(10), 0, m.start()) + 1}: {m.group(1)}')
    for f, line, head, body in functions(text):
        where = f'{name}:{line}: {f}'
        result = re.search(r'->\s*([^{]*?)\s*(?:requires|ensures|where|$)', head, re.S)
        result = result.group(1).strip() if result else ''
        if result == 'u8' and re.search(r'(return|answer:)? ?\b(1?\d|2[01])\b\s*(;|\n?\s*\})', body) and 'RULES' not in result and re.search(r'return \d+;', body):
            add('1d functions that return numbers of refusals', where)
        for m in re.finditer(r'\b(answer|early|refusal|asked|read|list|part|begun|kind|mark|class|order|found)(\.\w+)? (==|!=) (\d+|[A-Z_]{3,})', body):
            add('1e comparisons with a number for a kind or refusal', f'{where}: {m.group()}')
        for m in re.finditer(r'\b(while|loop)\b[^{]*\{', body):
            add('3 loops by while and loop', f'{where}: {" ".join(m.group().split())}')
        inner = ' '.join(body[1:-1].split())
        if re.fullmatch(r'\(?\w+ as \w+\)?', inner):
            add('4a functions that are one conversion', where)
        if re.fullmatch(r'if (\w+) (<|<=) (\w+) \{ (return )?\w+;? \}( else \{)? ?\w+ ?\}?', inner):
            add('4b min, max or a sum with a limit by hand', where)
        if re.search(r'if [^{}]*\{ return (true|false); \}', inner):
            add('4c truth by branches', where)
        for m in re.finditer(r'(\w+): (\w+)\.\1,\s*(\w+): \2\.\3,\s*(\w+): \2\.\4', body):
            add('4d fields copied one by one', f'{where}: {m.group(2)}')
        if re.search(r'\[\s*\w+(\.\w+)?\[0\](\.\w+)*,\s*\w+(\.\w+)?\[1\]', body):
            add('4e elements listed one by one', where)
        if len(re.findall(r'if \w+(\.\w+)? == \w+(::\w+)? \{\s*return ', body)) >= 3:
            add('7 switches on which step to run', where)
        lines = [l.strip() for l in body.split('\n') if l.strip() not in ('', '{', '}')]
        if len(lines) >= 3:
            shape = re.sub(r"\b(?!if\b|else\b|let\b|mut\b|while\b|for\b|in\b|return\b|loop\b|match\b|as\b)[A-Za-z_]\w*\b", 'x', ' '.join(lines))
            shape = re.sub(r'\b0x[0-9A-Fa-f]+|\d+|b\'[^\']*\'|b?"[^"]*"', '0', shape)
            shape = re.sub(r'\s+', '', shape)
            shapes[shape].append(where)
        params = re.findall(r"(\w+): ((?:&(?:'a )?(?:mut )?)?[^,()]+?(?:\[[^\]]*\])?)\s*[,)]", head[:head.find('->')] if '->' in head else head.split('requires')[0].split('ensures')[0])
        for p, t in params:
            groups[name.split('/')[0], p].append(where)
        for m in re.finditer(r'requires(?: \w+)? \{(.*?)\}\s*(?=requires|ensures|$|\{)', head, re.S):
            for part in re.split(r'×', m.group(1)):
                part = ' '.join(part.split()).strip('() ')
                if len(part) > 6:
                    clauses[(name.split('/')[0], part)].append(where)

for shape, where in shapes.items():
    if len(where) > 1:
        add('2 functions of one shape', ' = '.join(where))
# parameters of which, in the functions of a crate, none stands without the others
together = collections.defaultdict(list)
for (crate, parameter), where in groups.items():
    if len(where) >= 3:
        together[crate, tuple(where)].append(parameter)
for (crate, where), names in sorted(together.items()):
    if len(names) > 1:
        add('5a parameters that always travel together', f'{crate}: {", ".join(sorted(names))} in {len(where)} functions')
for (crate, part), where in sorted(clauses.items()):
    if len(where) >= 3:
        add('5b one fact required in three functions or more', f'{crate}: {part} in {len(where)} functions')

for point in sorted(found):
    print(f'{len(found[point]):4} {point}')
    if places:
        for where in found[point]:
            print('       ', where)
