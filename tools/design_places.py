#!/usr/bin/env python3
"""design_places.py [POINT [-v]]: counts in crates/*/src the places that docs/DESIGN-PASS.md speaks of; -v lists them. Run it at the top.
`alike` and `zeros` in place of a point's number: two lists to look through, which the page's table does not count."""
import collections, difflib, glob, itertools, re, sys


def sources():
    return [(f, open(f, encoding='utf-8').read()) for f in sorted(glob.glob('crates/*/src/**/*.rt', recursive=True))]


def functions():
    """(file, name, parameters, result, clauses, body) of each function"""
    for f, t in sources():
        for m in re.finditer(r'^[ ]*(?:pub )?(?:const )?fn (\w+)(?:<[^>]*>)?\(', t, re.M):
            i, d = m.end(), 1
            while d:
                d += {'(': 1, ')': -1}.get(t[i], 0)
                i += 1
            params, j = t[m.end():i - 1], i
            end = re.compile(r'\n[ ]*\{\n|\{\n|;\n').search(t, j)
            # the body begins at the first brace that no clause has before it
            k, clauses = i, []
            while True:
                c = re.compile(r'\s*(?:where\s+)?(requires|ensures)\*?( \w+)? \{').match(t, k)
                if not c:
                    r = re.compile(r'\s*->\s*[^{;]*?(?=\s*(?:requires|ensures|where|\{|;))', re.S).match(t, k)
                    if r and not clauses:
                        k = r.end()
                        continue
                    break
                e, d = c.end(), 1
                while d:
                    d += {'{': 1, '}': -1}.get(t[e], 0)
                    e += 1
                clauses.append(t[c.end():e - 1])
                k = e
            r = re.match(r'\s*->\s*([^{;]*?)\s*(?=requires|ensures|where|\{|;|$)', t[i:k + 200], re.S)
            b, d = t.find('{', k), 1
            e = b + 1
            while b >= 0 and d and e < len(t):
                d += {'{': 1, '}': -1}.get(t[e], 0)
                e += 1
            yield f, m.group(1), params, (r.group(1) if r else '').strip(), clauses, t[b:e]


def conjuncts(clause):
    c = re.sub(r'^\s*let \w+ = .*? in\s', '', clause, flags=re.S)
    out, d, cur = [], 0, ''
    for ch in c:
        d += {'(': 1, '[': 1, '{': 1, ')': -1, ']': -1, '}': -1}.get(ch, 0)
        if ch == '×' and d == 0:
            out.append(cur)
            cur = ''
        else:
            cur += ch
    out.append(cur)
    return [' '.join(x.strip().strip('()').split()) for x in out]


def point1():
    """own enums of two variants; structs with a bool or a number of a check beside a value; functions with a number code; constants that number kinds"""
    found = []
    for f, t in sources():
        for m in re.finditer(r'^(?:pub )?enum (\w+)[^{]*\{(.*?)^\}', t, re.M | re.S):
            flat = re.sub(r'\{[^{}]*\}', '', re.sub(r'//.*', '', m.group(2)))
            if len([v for v in flat.split(',') if v.strip()]) == 2:
                found.append((f, 'enum ' + m.group(1)))
        for m in re.finditer(r'^(?:pub )?struct (\w+)[^{;(]*\{(.*?)^\}', t, re.M | re.S):
            if re.search(r'^\s*(?:pub )?(?:\w+: bool|number: usize|code: usize|kind: usize|rule: usize),', m.group(2), re.M):
                found.append((f, 'struct ' + m.group(1)))
        for m in re.finditer(r'^\s*(?:pub )?const ([A-Z_]+): (?:usize|u8|u32) = \d{1,2};', t, re.M):
            if not m.group(1).endswith(('S', 'HEADER', 'WORDS', 'SHORT', 'FEW')):
                found.append((f, 'const ' + m.group(1)))
    for f, n, p, r, c, b in functions():
        if r in ('usize', 'u32', 'u64') and re.search(r'return (?:[1-9]|1\d|2[0-2]);', b) and re.search(r'\n\s*0\n\}$', b):
            found.append((f, 'fn ' + n))
        elif r.split('::')[-1] in ('Fault', 'Verdict', 'Findings'):
            found.append((f, 'fn ' + n))
    return found


def point2():
    """functions of a crate whose bodies are alike, names and numbers aside"""
    at = collections.defaultdict(list)
    for f, n, p, r, c, b in functions():
        if b.count('\n') < 4:
            continue
        s = re.sub(r'//.*', '', b)
        s = re.sub(r'[A-Za-z_]\w*', lambda m: m.group(0) if m.group(0) in ('let', 'mut', 'if', 'else', 'while', 'for', 'in', 'return', 'match', 'loop', 'as', 'true', 'false') else 'N', s)
        s = re.sub(r'\d+', '0', re.sub(r'\s+', ' ', s))
        at[s].append((f, n))
    return [(v[0][0], ' = '.join(n for _, n in v)) for v in at.values() if len(v) > 1]


def point3():
    """`while` and `loop`"""
    return [(f, l.strip()) for f, t in sources() for l in t.split('\n') if re.match(r"\s*(?:'\w+: )?(?:while|loop)\b", l)]


def point4():
    """impls of equality, order, copying, conversion and printing by hand; functions that only convert a number"""
    found = []
    for f, t in sources():
        for m in re.finditer(r'^impl.* (PartialEq|Eq|PartialOrd|Ord|Clone|Copy|From<.*>|TryFrom<.*>|Display|Debug) for (\w+)', t, re.M):
            found.append((f, m.group(0)))
    for f, n, p, r, c, b in functions():
        if re.fullmatch(r'\{\s*\w+ as \w+\s*\}', b):
            found.append((f, 'fn ' + n))
    return found


def point5():
    """facts that stand in the clauses of three functions or more; runs of parameters that three functions or more have"""
    facts, runs = collections.defaultdict(set), collections.defaultdict(set)
    for f, n, p, r, c, b in functions():
        for x in c:
            for fact in conjuncts(x):
                if len(fact) > 3 and 'result' not in fact:
                    facts[fact].add((f, n))
        ps = [' '.join(x.split()) for x in re.split(r',(?![^<\[(]*[>\])])', p) if x.strip()]
        for i in range(len(ps) - 1):
            if 'self' not in ps[i]:
                runs[ps[i] + ', ' + ps[i + 1]].add((f, n))
    return [('', f'{len(v)} functions: {k}') for d in (facts, runs) for k, v in sorted(d.items(), key=lambda x: -len(x[1])) if len(v) > 2]


def point6():
    """functions that take a slice with a length, a place or counts beside it"""
    return [(f, 'fn ' + n) for f, n, p, r, c, b in functions()
            if re.search(r'&(?:mut )?\[\w+(?:; [^\]]*)?\],\s*(?:n|b|c|h|len|count|height|at|from|top): (?:usize|Bundle|Counts)', p)]


def point7():
    """tables of functions and matches whose arms all call a function"""
    found = []
    for f, t in sources():
        for m in re.finditer(r'\[\s*fn\(|: fn\(|dyn ', t):
            found.append((f, m.group(0)))
    for f, n, p, r, c, b in functions():
        for m in re.finditer(r'match (\w+) \{(.*?)\n    \}', b, re.S):
            arms = re.findall(r'=> (.*)', m.group(2))
            if len(arms) > 2 and all(re.match(r'(?:\w+(?:::\w+)*\(|\{$|\w+$)', a) for a in arms) and sum('(' in a for a in arms) > 1:
                found.append((f, 'fn ' + n + ': match ' + m.group(1)))
    return found


def point8():
    """answers of the functions' proofs"""
    return [(f, '') for f in sorted(glob.glob('crates/*/proofs/**/Answers.antt', recursive=True))
            for l in open(f, encoding='utf-8') if re.match(r'pub [\w-]+ : goal\.', l)]


def alike():
    """pairs of bodies of any crates that are alike by nine parts in ten, names and numbers aside"""
    kept = set('let mut if else match return for in while loop as true false Some None Ok Err self Self break'.split())
    shapes = []
    for f, n, p, r, c, b in functions():
        words = re.findall(r'b?"[^"]*"|\w+|[^\s\w]', re.sub(r'//.*', '', b))
        shapes.append((f, n, [w if w in kept or not re.match(r'[\w"]', w) else '0' if w[0].isdigit() else 'N' for w in words]))
    found = []
    for (f, n, a), (g, m, b) in itertools.combinations([s for s in shapes if len(s[2]) >= 28], 2):
        if 5 * abs(len(a) - len(b)) <= len(a) + len(b):
            likeness = difflib.SequenceMatcher(None, a, b, autojunk=False)
            if likeness.quick_ratio() >= 0.9 and likeness.ratio() >= 0.9:
                found.append((f, f'{n} ~ {g.replace("crates/", "").replace("/src", "")}  {m}'))
    return found


def zeros():
    """comments that say of a result or a field that it is 0 where there is none"""
    return [(f, l.strip()) for f, t in sources() for l in t.split('\n') if re.search(r'//.*\b0 (?:for|where|if|either|when)\b|//.*[;,(] ?0 (?:is|for) no', l)]


if __name__ == '__main__':
    points = {str(k): p for k, p in enumerate([point1, point2, point3, point4, point5, point6, point7, point8], 1)}
    more = {'alike': alike, 'zeros': zeros}
    args = [a for a in sys.argv[1:] if a != '-v']
    for k, p in [(k, p) for k, p in {**points, **more}.items() if k in (args or points)]:
        found = p()
        print(f'{"point " * k.isdigit()}{k}: {len(found)}   {p.__doc__}')
        if '-v' in sys.argv:
            for f, what in found:
                print(f'    {f.replace("crates/", "").replace("/src", "")}  {what}')
