#!/usr/bin/env python3
"""Counts the places in crates/*/src that read like an older Rattle, by the eight points of docs/DESIGN-PASS.md.

    python3 tools/count_places.py [COMMIT] [--list]

Without a commit the checkout is read. It goes by text: what a reader has to judge (twins, what travels together) is listed by the
likeness that a text shows, and docs/DESIGN-PASS.md says of each place what became of it.
"""
import collections, itertools, os, re, subprocess, sys

args = [a for a in sys.argv[1:] if not a.startswith('--')]
commit = args[0] if args else None
listing = '--list' in sys.argv


def files(pattern):
    if commit:
        names = subprocess.run(['git', 'ls-tree', '-r', '--name-only', commit, 'crates'], capture_output=True, text=True).stdout.split()
    else:
        names = [os.path.join(d, f) for d, _, fs in os.walk('crates') for f in fs if '/out' not in d]
    return sorted(n for n in names if re.search(pattern, n))


def text(name):
    if commit:
        return subprocess.run(['git', 'show', f'{commit}:{name}'], capture_output=True, text=True).stdout
    return open(name).read()


sources = {n: text(n) for n in files(r'^crates/\w+/src/.*\.rt$')}
bare = {n: re.sub(r'//[^\n]*', '', s) for n, s in sources.items()}
found = collections.OrderedDict()


def place(point, kind, name, position, what):
    line = bare[name][:position].count('\n') + 1
    found.setdefault(point, []).append((kind, f'{name}:{line}', ' '.join(what.split())[:90]))


def each(point, kind, pattern, flags=re.S):
    for n, s in bare.items():
        for m in re.finditer(pattern, s, flags):
            place(point, kind, n, m.start(), m.group(0))


# 1. Options, Results, codes
each(1, 'None handed on by hand', r'else \{\s*return None;\s*\}')
each(1, 'None made an Err by hand', r'let (?:Some|Ok)\([^=]*\) = [^;{]*else \{\s*return Err\([^;]*\);\s*\}')
each(1, 'some other than one refused by hand', r'if let Some\(_\) = [^{]*\{\s*return None;')
each(1, 'a fault as an Option', r'-> Option<Fault>')
each(1, 'an Option or Result matched by hand', r'(?:None => None|Err\((\w+)\) => Err\(\1?|Ok\((\w+)\) => Ok\(\2\)|None => false,|Ok\(_\) => None,)')
each(1, 'a fault handed on by hand', r'if let Some\(fault\) = [^{]*\{\s*return Err\(fault\);')
each(1, 'an enum with a case for none', r'\bOther,')
each(1, 'a bool that stands for a refusal', r'if !(?:raise|put)\(')
each(1, 'a flag beside a value', r'\branged = ')
each(1, 'a number in place of a kind or a refusal', r'(?:=> \d+,\s*Refusal::\w+ => \d+,|pub class: u64|\n    class: u64,|individual_amounts\(class: u64|\{\s*0\s*\}|fn paid_by[^{]*-> u8)')

# 2. twins: functions whose text is the same but for names, numbers and texts
shapes = collections.defaultdict(list)
for n, s in bare.items():
    for m in re.finditer(r'\n( *)(?:pub(?:\(crate\))? )?(?:const )?fn (\w+).*?\n\1\{(.*?)\n\1\}', s, re.S):
        body = m.group(3)
        if len(body.split()) < 4:
            continue
        shape = re.sub(r"b?'[^']*'|b?\"[^\"]*\"", 'T', body)
        shape = re.sub(r"(?:T, )+T|(?:T\s*,\s*)+", 'T', shape)
        shape = re.sub(r'\b(?!if|else|for|in|let|mut|match|return|while|loop|true|false|self|as)[A-Za-z_]\w*\b|\b\d[\d_]*\b', 'x', shape)
        shapes[re.sub(r'\s+', '', shape)].append((n, m.start(), m.group(2)))
for shape, group in shapes.items():
    if len(group) > 1:
        for n, position, f in group:
            place(2, 'alike: ' + ', '.join(sorted(g[2] for g in group)), n, position + 1, f)
consts = collections.defaultdict(list)
for n, s in bare.items():
    for m in re.finditer(r'const \w+: (\w+) = \1 \{[^}]*\}', s):
        consts[re.sub(r'\s+|const \w+', '', m.group(0))].append((n, m.start(), m.group(0)))
for group in consts.values():
    if len(group) > 1:
        for n, position, what in group:
            place(2, 'one constant again', n, position, what)

# 3. loops by index
each(3, 'a for over numbers that index', r'for \w+ in [^{;]*\.\.[^{;]*\{')
each(3, 'a while or loop that counts', r'(?:while [^{]*[<>][^{]*\{|\bloop \{)')
each(3, 'a loop that stops at the first that fails', r'for &?\w+ in (?![^{]*\.\.)[^{]+\{\s*(?:let \w+ = [^;]*;\s*)?if [^{]*\{\s*return false;')
each(3, 'a division rounded up, a subtraction stopped, a range tested by hand', r'\(\w+ \+ \(\w+ - 1\)\) / \w+|if \w+ > \w+ \{ \w+ - \w+ \} else \{ 0 \}')

# 4. copies, defaults, conversions, printing by hand
each(4, 'a field copied by hand', r'\b(\w+): \w+\.\1\b')
each(4, 'zeros written by hand', r'\{\s*class: 0,|\{\s*individual: 0,|\{\s*ask: 0,|\{\s*asset: 0,\s*quantity: 0,|\{\s*minimum: 0,\s*above_lri: 0,')
each(4, 'a conversion by hand', r'fn (?:numbered|number)\(|const \w+: u64 = 0;|as u128')
each(4, 'digits by hand', r'/ 10;|% 10\)')

# 5. facts in three contracts, parameters that travel together
facts = collections.defaultdict(list)
pairs = collections.defaultdict(list)
for n, s in bare.items():
    for m in re.finditer(r'\n( *)(?:pub(?:\(crate\))? )?fn (\w+)(?:<(?:->|[^<>]|<[^<>]*>)*>)?\((.*?)\)(?: -> [^\n]*)?\n(.*?)\n\1\{', s, re.S):
        name, parameters, clauses = m.group(2), m.group(3), m.group(4)
        for f in set(re.findall(r'IsSegment \w+|IsMember \w+|length seats\.\w+ ≡ all_seats|length \w+(?:\.\w+)+ < length \w+\.now|size ≤ fund_limit|AreMinimums|Tested|\w+ ≤ margin_limit|at \+ scenarios ≤ length', ' '.join(re.findall(r'(?:requires|ensures)[^\n]*', clauses)))):
            f = re.sub(r'segment|figure\.segment', 's', re.sub(r'\.(?:now|old)', '', f))
            facts[re.sub(r'p\.\d?\.?', '', f)].append((n, m.start() + 1, name))
        listed = sorted(set(re.sub(r"&'a |&mut |&", '', p.strip()) for p in re.split(r',(?![^<]*>)', parameters) if ':' in p))
        for pair in itertools.combinations(listed, 2):
            pairs[pair].append((n, m.start() + 1, name))
for f, group in facts.items():
    if len(group) > 2:
        for n, position, name in group:
            place(5, 'a fact in the contracts of three: ' + f, n, position, name)
seen = set()
for pair, group in sorted(pairs.items(), key=lambda p: -len(p[1])):
    names = frozenset((n, name) for n, _, name in group)
    if len(group) > 2 and not any(names <= other for other in seen):
        seen.add(names)
        for n, position, name in group:
            place(5, 'together: ' + ' and '.join(pair), n, position, name)

# 6. buffers with a length beside, parallel arrays
each(6, 'an array with a length beside', r'(?:\w+): \[\w+; \w+\],\n\s*(?:pub\(crate\) )?(?:count|len): usize')
each(6, 'bytes and a place in them', r'out: &mut \[\w+\],?\s*at: usize|digits, first\)')
each(6, 'parallel arrays', r'let mut (?:list|minimums|asks) = \[0; ALL_MEMBERS\]|means: &mut \[u64\], minimums: &mut \[u64\]|means: &Means, minimums: &\[u64\]|means: ArrayVec<[^>]*>,\s*(?:pub\(crate\) )?minimums: ArrayVec|means: Means<[^>]*>,\s*minimums: &')

# 7. switches on steps
each(7, 'a switch on which step to run', r'Key::\w+ => after_\w+\(line\)')
each(7, 'a table of functions', r'\[fn\(')

# 8. proofs
answers = {n: text(n) for n in files(r'^crates/\w+/proofs/.*Answers\.antt$')}
lemmas = {n: text(n) for n in files(r'^crates/\w+/(?:proofs/\w+|specs/(?:Picks|Sizes))\.antt$')}
for n, s in answers.items():
    for m in re.finditer(r'\npub ([\w-]+) : goal\.', s):
        found.setdefault(8, []).append(('an answer', n, m.group(1)))

for point, places in sorted(found.items()):
    print(f'{point}: {len(places)}')
    kinds = collections.Counter(k for k, _, _ in places)
    for kind, count in kinds.items():
        print(f'    {count:4} {kind}')
        if listing:
            for k, where, what in places:
                if k == kind:
                    print(f'            {where}  {what}')
print(f'proof files: {len(answers) + len(lemmas)}, lines in them: {sum(s.count(chr(10)) for s in list(answers.values()) + list(lemmas.values()))}')
