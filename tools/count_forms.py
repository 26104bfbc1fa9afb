#!/usr/bin/env python3
"""Counts places in crates/*/src/*.rt that have an older form: tools/count_forms.py [COMMIT] [-v]. Without a commit, the working tree.

The points are those of docs/DESIGN-PASS.md. -v prints each place. Tests (mod tests) are left out."""
import collections, itertools, re, subprocess, sys

verbose = '-v' in sys.argv
args = [a for a in sys.argv[1:] if a != '-v']

def git(*a):
    return subprocess.run(['git', *a], capture_output=True, text=True, check=True).stdout

def sources():
    if args:
        names = [n for n in git('ls-tree', '-r', '--name-only', args[0], 'crates').split('\n') if re.search(r'/src/.*\.rt$', n)]
        return {n: git('show', f'{args[0]}:{n}') for n in names}
    names = [n for n in git('ls-files', 'crates').split('\n') if re.search(r'/src/.*\.rt$', n)]
    return {n: open(n).read() for n in names}

texts = {n: t.split('#[cfg(test)]')[0] for n, t in sources().items()}

def lines(pattern):
    return [(n, i, l.strip()) for n, t in texts.items() for i, l in enumerate(t.split('\n'), 1) if re.search(pattern, l)]

def show(point, what, places):
    print(f'{point:3} {len(places):4}  {what}')
    if verbose:
        for p in places:
            print('        ', ':'.join(map(str, p)))

# A function: its file, name, parameters, clauses and body.
def functions():
    for n, t in texts.items():
        for m in re.finditer(r'^( *)(?:pub )?(?:extern "C" )?fn (\w+)(?:<[^{;]*?>)?\((.*?)\)(?: -> [^{]*?)?((?:\n *(?:requires|ensures).*?)*)\n?\1? *\{\n(.*?)^\1\}', t, re.S | re.M):
            yield n, m.group(2), m.group(3), m.group(4), m.group(5)

def parameters(text):
    depth, part, out = 0, '', []
    for c in text:
        depth += c in '([<'
        depth -= c in ')]>'
        if c == ',' and depth == 0:
            out.append(part); part = ''
        else:
            part += c
    return [re.sub(r'\s+', ' ', p).strip() for p in out + [part] if p.strip()]

functions = list(functions())

show('1', 'own enums', lines(r'^\s*(pub )?enum '))
show('1', 'flags that say whether a value is there', lines(r'\b(present|limited|kept|last|over): bool|\.is_ok\(\);'))
show('1', 'number codes for kinds and classes, in signatures and fields', lines(r'\b(kind|before|k|l|mark): (u8|usize)\b|fn (class_of|kind_at)\b'))
show('1', 'refusals and stops as numbers', lines(r'^\s*(pub )?fn \w*(refusal|number)\w*\(.*-> u32|return (1|6|7|12);$'))
show('1', 'sentinels, as the comment says', lines(r'^\s*// .*(; 0 where|, or 0\b|; 0 for|or n\.$|or the number of symbols|past the last clause|or 65535|4,097)'))

shapes = collections.defaultdict(list)
for n, name, params, clauses, body in functions:
    code = [re.sub(r'\b[a-z_][A-Za-z_0-9:]*\b|\b\d+\b|b?"[^"]*"', '_', l.strip()) for l in body.split('\n') if l.strip()]
    for i in range(len(code) - 5):
        shapes['\n'.join(code[i:i + 6])].append((n, name, i))
pairs = set()
for places in shapes.values():
    owners = sorted({(n, f) for n, f, _ in places})
    pairs |= {(a, b) for a in owners for b in owners if a < b}
show('2', 'pairs of functions with six lines of one shape', [(a[0], a[1], b[0], b[1]) for a, b in sorted(pairs)])
bodies = collections.defaultdict(list)
for n, name, params, clauses, body in functions:
    bodies[re.sub(r'\s+', ' ', body)].append((n, name))
show('2', 'functions with the body of another', [p for ps in bodies.values() if len(ps) > 1 for p in ps])

show('3', 'while and loop', lines(r'^\s*(\'\w+: )?(while|loop)\b'))
show('3', 'of these, a counter that goes up by one at the end', lines(r'^\s*(i|j|k|n|at|f|size|done|count) [+]= 1;'))

show('4', 'casts between numbers', lines(r' as (u8|u16|u32|u64|usize)\b'))
show('4', 'arithmetic on bytes of a number', lines(r'(% 256|/ 256|256 \*|65536 \*|4294967296 \*)'))

threes = collections.defaultdict(set)
for n, name, params, clauses, body in functions:
    for three in itertools.combinations([p for p in parameters(params) if ':' in p], 3):
        threes[three].add((n, name))
travelling = sorted({f for fs in threes.values() if len(fs) >= 5 for f in fs})
show('5', 'functions with more than six parameters', [(n, f, len(parameters(p))) for n, f, p, _, _ in functions if len(parameters(p)) > 6])
show('5', 'functions with three parameters that four others have too', travelling)
facts = collections.defaultdict(set)
for n, name, params, clauses, body in functions:
    for fact in re.findall(r'requires[^{]*\{(.*)\}', clauses):
        for part in re.split(r' × ', fact):
            facts[re.sub(r'\b\w+\.(now|old|new)\b', r'_.\1', part.strip(' ()'))].add((n, name))
show('5', 'facts that three functions or more require', [(f, len(s)) for f, s in facts.items() if len(s) >= 3])

show('6', 'a buffer and the place in it', [(n, f) for n, f, p, _, _ in functions if re.search(r'out: &mut \[u8\]', p) and re.search(r'\bat: usize', p)])
show('6', 'arrays that run side by side', lines(r'\b(froms|tos|heads|befores|symbols|given|found|who|begun)\b.* = \[0'))
show('7', 'matches whose arms each call a function', [(n, f) for n, f, _, _, b in functions if len(re.findall(r'=> (?:return )?[a-z_:]+\(', b)) >= 3])
