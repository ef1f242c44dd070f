#!/usr/bin/env python3
"""Takes the width W out of files' definitions and laws, and the 2 that stood for it out of every use."""
import re, os, sys, glob
root = sys.argv[1]
spec = sorted(glob.glob(f'{root}/crates/files/specs/*.antt')) + sorted(glob.glob(f'{root}/crates/renumbering/specs/*.antt'))
defline = re.compile(r'^(\s*)(?:unfoldable |abbrev )?(?:pub )?(?:(record|data) )?([^\s:(){}]+)(.*)$')
names = set()
def indent(l): return len(l) - len(l.lstrip(' '))
KEEP = {'mask-room', 'bytes-bits'}
def process(path):
    lines = open(path).read().split('\n')
    out = []
    stack = []  # (indent of a module's inside, dedent, is it under W)
    i = 0
    for l in lines:
        k = indent(l)
        if l.strip():
            while stack and k < stack[-1][0]:
                stack.pop()
        inside = [s for s in stack]
        ded = sum(s[1] for s in inside)
        m = re.match(r'^(\s*)module _ \(W : ℕ\) where$', l)
        if m:
            stack.append((k + 2, 2, True)); continue
        m = re.match(r'^(\s*)module _ (\(W\b)?', l)
        if m:
            stack.append((k + 2, 0, bool(m.group(2)) or any(s[2] for s in stack)))
        # names
        d = re.match(r'^\s*(?:unfoldable |abbrev )?(?:pub )?(?:(?:record|data) )?([^\s:(){}]+)( :| \()', l)
        if d and not l.strip().startswith(('module', 'where', 'use', '--')):
            nm = d.group(1)
            if inside and k == inside[-1][0] and inside[-1][2]: names.add(nm)
            if re.search(r'^\s*(?:unfoldable |abbrev )?(?:pub )?(?:(?:record|data) )?\S+ (?:: )?\(W\b', l): names.add(nm)
        out.append(l[ded:] if l.strip() else l)
    return out
texts = {}
for p in spec: texts[p] = process(p)
for n in KEEP: names.discard(n)
skip = {'P','R','T','bytes','known','made','sized','declared','begun','readable','mines','where','let','in','go','module','record','data','pub'}
names -= skip
pat = re.compile(r'(?<![\w\-′·.])(' + '|'.join(sorted(map(re.escape, names), key=len, reverse=True)) + r') (?:W|2)(?=[\s)\]},;]|$)')
pat1 = re.compile(r'\((' + '|'.join(sorted(map(re.escape, names), key=len, reverse=True)) + r') (?:W|2)\)')
def finish(path, t):
    def keep(l): return 'mask-room :' in l or 'bytes-bits' in l
    res = []
    for l in t.split('\n'):
        l = pat1.sub(lambda m: m.group(1), l)
        l = pat.sub(lambda m: m.group(1), l)
        if path in texts and not keep(l):
            l = re.sub(r'\(W : ℕ\) (?:→ )?', '', l)
            l = re.sub(r'\(W ((?:\S+ )+): ℕ\)', r'(\1: ℕ)', l)
            l = l.replace('(8 * W)', '16').replace('8 * W', '16').replace('W ∷', '2 ∷').replace('spread W', 'spread 2').replace('256 ^ W', '256 ^ 2')
        res.append(l)
    return '\n'.join(res)
for p in texts:
    t = finish(p, '\n'.join(texts[p]))
    open(p, 'w').write(t)
other = []
for ext in ('antt', 'rt', 'edit'):
    other += glob.glob(f'{root}/crates/**/*.{ext}', recursive=True) + glob.glob(f'{root}/tests/meanings/*.{ext}')
for p in other:
    if p in texts: continue
    t = open(p).read(); n = finish(p, t)
    if n != t: open(p, 'w').write(n)
print(len(names)); print(' '.join(sorted(names)))
def sub(path, *pairs):
    p = f'{root}/crates/{path}'
    if not os.path.exists(p): return
    t = open(p).read()
    for a, b in pairs:
        if a not in t: print('not found', path, a)
        t = t.replace(a, b)
    open(p, 'w').write(t)
sub('files/specs/LoadLaws.antt', ('made W ', 'made '))
sub('files/specs/WriteLaws.antt', ('mask-room W (P', 'mask-room 2 (P'))
sub('renumbering/specs/NewNumbersLaws.antt', (' π W ', ' π '), ('readable W ', 'readable '))
sub('renumbering/specs/SameRulesLaws.antt', (' A W,', ' A,'), (' A W)', ' A)'))
sub('renumbering/specs/Renumbered.antt', ('-- ---- what is said; an operation set is W bytes wide', '-- ---- what is said'))
sub('files/specs/Calls.antt', ('-- an operation set is W bytes wide: 2 for 16 operations\n', ''))
sub('files/specs/Demand3.antt', ('-- W bytes for a set of operations; merging', '-- merging'))
sub('files/specs/Load.antt', ('. An operation set is W\n-- bytes wide in the rule file, so 8 × W is the most operations; room', '. Room\n-- '.replace('Room\n-- ', '\n-- room')))
sub('files/specs/RoleFile.antt', ('-- an operation set is W bytes wide in the rule file, so there are at most 8 × W operations: 16 where W is 2\n', ''))
sub('files/specs/RuleFile.antt', ('-- ---- bytes. An operation set is W bytes wide: 2 for 16 operations', '-- ---- bytes'))
sub('files/specs/RulePart.antt', ('-- an operation set is W bytes wide: 2 for 16 operations\n', ''))
sub('files/specs/SoundLaws.antt', ('-- W bytes for a set of operations\n', ''))
sub('examples/specs/Examples.antt', ('-- ---- the calls, with operation sets of 2 bytes', '-- ---- the calls'))
