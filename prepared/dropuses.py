#!/usr/bin/env python3
"""The width 2 out of uses of `files` in the files named: dropuses.py NAMES FILE.. (NAMES: the names that dropw.py prints)."""
import re, sys
names = sorted(open(sys.argv[1]).read().split(), key=len, reverse=True)
alt = '|'.join(map(re.escape, names))
pat1 = re.compile(r'\((' + alt + r') 2\)')
pat = re.compile(r'(?<![\w\-′·.])(' + alt + r') 2(?=[\s)\]},;]|$)')
for p in sys.argv[2:]:
    t = open(p).read()
    n = '\n'.join(pat.sub(lambda m: m.group(1), pat1.sub(lambda m: m.group(1), l)) for l in t.split('\n'))
    if n != t: open(p, 'w').write(n); print(p)
