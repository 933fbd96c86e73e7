"""A plain second reading of texts with definitions: reasons by the tables of the specification; states by corpus/exact.py. Not part of the repository."""
import re, sys
from fractions import Fraction as F
sys.dont_write_bytecode = True
sys.path.insert(0, '../../corpus')
import exact
sys.setrecursionlimit(100000)
TOKEN = re.compile(rb'(?P<blank>[ \t\r\n]|//[^\n]*)|(?P<word>[A-Za-z][A-Za-z0-9_]*)|(?P<real>(?:[0-9]+\.[0-9]*|\.[0-9]+)(?:[eE][+-]?[0-9]+)?|[0-9]+[eE][+-]?[0-9]+)|(?P<whole>[0-9]+)|(?P<text>"[^"\n]*")|(?P<arrow>->)|(?P<equal>==)|(?P<mark>[;,()\[\]{}+\-*/^])')
KEY = set('qreg creg include measure barrier gate opaque reset if pi'.split())
FUN = set('sin cos tan exp ln sqrt'.split())
UNDEF = set('rz u2 u3 crz cu3'.split())
MOST = 2 ** 63 - 1

def tokens(text):
    at, out = 0, []
    while at < len(text):
        m = TOKEN.match(text, at)
        if not m: return out, at
        if m.lastgroup != 'blank': out.append((m.lastgroup, m.group().decode('latin1')))
        at = m.end()
    return out, None

class Refused(Exception): pass
class No(Exception): pass

def name(t):
    return t[0] == 'word' and 'a' <= t[1][0] <= 'z' and t[1] not in KEY

def split(ts, mark):
    parts, cur = [], []
    for t in ts:
        if t == ('mark', mark): parts.append(cur); cur = []
        else: cur.append(t)
    return parts + [cur]

def names(ts):
    out = []
    for p in split(ts, ','):
        if len(p) != 1 or not name(p[0]): raise No()
        out.append(p[0][1])
    return out

def argument(p):
    if len(p) == 1 and name(p[0]): return (p[0][1], None)
    if len(p) == 4 and name(p[0]) and p[1] == ('mark', '[') and p[2][0] == 'whole' and p[3] == ('mark', ']'): return (p[0][1], int(p[2][1]))
    raise No()

def arguments(ts): return [argument(p) for p in split(ts, ',')]

def angles(ts):
    """angles after an opening parenthesis, and what follows"""
    if ts and ts[0] == ('mark', ')'): return [], ts[1:]
    depth, cur, out = 0, [], []
    for i, t in enumerate(ts):
        if depth == 0 and t in (('mark', ','), ('mark', ')')):
            if not cur: raise No()
            out.append(cur); cur = []
            if t[1] == ')': return out, ts[i + 1:]
            continue
        if t == ('mark', '('): depth += 1
        if t == ('mark', ')'): depth -= 1
        cur.append(t)
    raise No()

def called(ts):
    if not ts or not name(ts[0]): raise No()
    rest, ang = ts[1:], []
    if rest and rest[0] == ('mark', '('): ang, rest = angles(rest[1:])
    return ts[0][1], ang, rest

def form(ts, end):
    """the form of a closed statement without its end"""
    if not ts: raise No()
    first = ts[0]
    if first == ('word', 'gate'):
        if end != '}': raise No()
        at = next((i for i, t in enumerate(ts) if t == ('mark', '{')), None)
        if at is None: raise No()
        head, body = ts[1:at], ts[at + 1:]
        if not head or not name(head[0]): raise No()
        rest, params = head[1:], []
        if rest and rest[0] == ('mark', '('):
            close = next((i for i, t in enumerate(rest) if t == ('mark', ')')), None)
            if close is None: raise No()
            inside = rest[1:close]
            params = names(inside) if inside else []
            if any(p in FUN for p in params): raise No()
            rest = rest[close + 1:]
        formals = names(rest)
        items = split(body, ';')
        if items[-1]: raise No()
        lines = []
        for item in items[:-1]:
            if item and item[0] == ('word', 'barrier'): lines.append(('barrier', names(item[1:])))
            else:
                n, a, r = called(item); lines.append(('call', n, a, names(r)))
        return ('gate', head[0][1], params, formals, lines)
    if end != ';': raise No()
    if first == ('word', 'OPENQASM'):
        if ts[1:] == [('real', '2.0')]: return ('version',)
        raise No()
    if first == ('word', 'include'):
        if len(ts) == 2 and ts[1][0] == 'text': return ('include', ts[1][1])
        raise No()
    if first in (('word', 'qreg'), ('word', 'creg')):
        if len(ts) == 5 and name(ts[1]) and ts[2] == ('mark', '[') and ts[3][0] == 'whole' and ts[4] == ('mark', ']'): return (first[1], ts[1][1], int(ts[3][1]))
        raise No()
    if first == ('word', 'barrier'): return ('barrier', arguments(ts[1:]))
    if first == ('word', 'measure'):
        at = next((i for i, t in enumerate(ts) if t[0] == 'arrow'), None)
        if at is None: raise No()
        return ('measure', argument(ts[1:at]), argument(ts[at + 1:]))
    n, a, r = called(ts)
    return ('call', n, a, arguments(r))

# ---- angles
def tree(ts, params):
    """an expression, or a refusal"""
    if len(ts) > 64: raise Refused('TooLong')
    at = 0
    def peek(): return ts[at] if at < len(ts) else None
    def take(m):
        nonlocal at
        if peek() == ('mark', m): at += 1; return True
        return False
    def expr():
        l = term()
        while peek() in (('mark', '+'), ('mark', '-')):
            o = ts[at][1]; take(o); l = (o, l, term())
        return l
    def term():
        l = factor()
        while peek() in (('mark', '*'), ('mark', '/')):
            o = ts[at][1]; take(o); l = (o, l, factor())
        return l
    def factor():
        if take('-'): return ('neg', factor())
        return power()
    def power():
        l = atom()
        if take('^'): return ('^', l, factor())
        return l
    def atom():
        nonlocal at
        t = peek()
        if t is None: raise Refused('Malformed')
        at += 1
        if t[0] == 'whole': return ('whole', int(t[1]))
        if t[0] == 'real': return ('real',)
        if t[0] == 'word' and t[1] in params: return ('param', params.index(t[1]))
        if t == ('word', 'pi'): return ('pi',)
        if t == ('mark', '('):
            v = expr()
            if not take(')'): raise Refused('Malformed')
            return v
        if t[0] == 'word' and t[1] in FUN:
            if not take('('): raise Refused('Malformed')
            v = expr()
            if not take(')'): raise Refused('Malformed')
            return ('fun', v)
        raise Refused('Malformed')
    v = expr()
    if at != len(ts): raise Refused('Malformed')
    return v

def narrow(q):
    if abs(q.numerator) > MOST or q.denominator > MOST: raise Refused('TooWide')
    return q

def value(t, given):
    k = t[0]
    if k == 'whole':
        if t[1] > MOST: raise Refused('TooWide')
        return (F(t[1]), F(0))
    if k == 'real': raise Refused('NotExact')
    if k == 'pi': return (F(0), F(1))
    if k == 'param': return given[t[1]]
    if k == 'neg':
        u, v = value(t[1], given); return (-u, -v)
    if k == 'fun':
        value(t[1], given); raise Refused('NotExact')
    l = value(t[1], given); r = value(t[2], given)
    if k == '+': return (narrow(l[0] + r[0]), narrow(l[1] + r[1]))
    if k == '-': return (narrow(l[0] - r[0]), narrow(l[1] - r[1]))
    if k == '*':
        if l[1] and r[1]: raise Refused('NotExact')
        if r[1] == 0: return (narrow(l[0] * r[0]), narrow(l[1] * r[0]))
        return (narrow(r[0] * l[0]), narrow(r[1] * l[0]))
    if k == '/':
        if r[0] == 0 and r[1] == 0: raise Refused('ZeroDivisor')
        if r[1]: raise Refused('NotExact')
        return (narrow(l[0] / r[0]), narrow(l[1] / r[0]))
    if k == '^': raise Refused('NotExact')

# ---- gates
def builtin(n):
    """controls, base, arguments, angles"""
    own = {'id': (0, 'id', 1, 0), 'cx': (1, 'x', 2, 0), 'cz': (1, 'z', 2, 0), 'ccx': (2, 'x', 3, 0), 'cswap': (1, 'swap', 3, 0)}
    if n in own: return own[n]
    m = re.fullmatch(r'(c{0,8})(x|y|z|h|s|sdg|t|tdg|swap|rx|ry|u1)', n)
    if not m: return None
    c, b = len(m[1]), m[2]
    return (c, b, c + (2 if b == 'swap' else 1), 1 if b in ('rx', 'ry', 'u1') else 0)

class Reader:
    def __init__(self): 
        self.regs, self.gates, self.qubits, self.items, self.count = {}, {}, 0, 0, 0
        self.measured, self.list, self.memo = set(), [], {}
    def gate(self, n):
        b = builtin(n)
        if b: return ('b', b[2], b[3], 0, 0, b)
        return self.gates.get(n)
    def judge(self, g, vals):
        """('err', why) or ('ok', count or None)"""
        key = (id(g) if g[0] == 'd' else g, vals)
        if key in self.memo: return self.memo[key]
        if g[0] == 'b':
            if not vals: r = ('ok', 1)
            else:
                u, v = vals[0]
                if u != 0: r = ('err', 'NotExact')
                else:
                    s = v * (4 if g[5][1] == 'u1' else 2)
                    if s.denominator != 1: r = ('ok', None)
                    elif g[5][1] == 'u1': r = ('ok', 1)
                    else:
                        m = int(s) % 8
                        r = ('ok', max(1, m if m <= 4 else 8 - m))
        else:
            total = 0; r = None
            for (n, callee, trees, on) in g[5]:
                try: vs = tuple(value(t, vals) for t in trees)
                except Refused as e: r = ('err', str(e)); break
                one = self.judge(callee, vs)
                if one[0] == 'err': r = one; break
                if one[1] is None: total = None
                elif total is not None: total += one[1]
            r = r or ('ok', total)
        self.memo[key] = r
        return r
    def expand(self, g, vals, on):
        if g[0] == 'b':
            c, b = g[5][0], g[5][1]
            steps = int(vals[0][1] * (4 if b == 'u1' else 2)) if vals else 0
            self.list.append(exact.Gate(b, steps, on[:c], on[c:]))
        else:
            for (n, callee, trees, js) in g[5]:
                self.expand(callee, tuple(value(t, vals) for t in trees), [on[j] for j in js])
    def target(self, a, quantum):
        r = self.regs.get(a[0])
        return r if r and r[0] == quantum else None

    def reason(self, f, limit):
        k = f[0]
        calls = []
        if k == 'call': calls = [(f[1], len(f[3]), len(f[2]))]
        if k == 'gate': calls = [(l[1], len(l[3]), len(l[2])) for l in f[4] if l[0] == 'call']
        if k == 'include' and f[1] != '"qelib1.inc"': return 'OutOfProfile'
        if k == 'gate' and any(c[0] in UNDEF and c[0] not in self.gates for c in calls): return 'OutOfProfile'
        if any(self.gate(c[0]) is None for c in calls): return 'UnknownName'
        if k in ('qreg', 'creg') and f[1] in self.regs: return 'Redeclared'
        if k == 'gate':
            if self.gate(f[1]) is not None or len(set(f[2] + f[3])) < len(f[2] + f[3]): return 'Redeclared'
            if any(a not in f[3] for l in f[4] for a in l[-1]): return 'UnknownRegister'
        args = [(a, True) for a in (f[3] if k == 'call' else f[1] if k == 'barrier' else [])]
        if k == 'measure': args = [(f[1], True), (f[2], False)]
        if any(self.target(a, q) is None for a, q in args): return 'UnknownRegister'
        if any(a[1] is not None and a[1] >= self.target(a, q)[2] for a, q in args): return 'IndexOutOfRange'
        if k in ('qreg', 'creg') and not 1 <= f[2] <= 1000000: return 'IndexOutOfRange'
        if any(self.gate(n)[1:3] != (x, y) for n, x, y in calls): return 'WrongCount'
        if k == 'measure':
            size = lambda a, q: 1 if a[1] is not None else self.target(a, q)[2]
            if size(f[1], True) != size(f[2], False): return 'SizesDiffer'
            return None
        if k == 'qreg': return 'TooManyQubits' if self.qubits + f[2] > limit else None
        if k == 'gate':
            if any(l[0] == 'call' and len(set(l[3])) < len(l[3]) for l in f[4]): return 'RepeatedQubit'
            if 1 + max([self.gate(n)[3] for n, _, _ in calls] or [0]) > 32: return 'TooDeep'
            try:
                for l in f[4]:
                    if l[0] == 'call':
                        for a in l[2]: tree(a, f[2])
            except Refused as e: return 'AngleRefused ' + str(e)
        if k == 'call':
            sizes = {self.target(a, True)[2] for a in f[3] if a[1] is None}
            if len(sizes) > 1: return 'SizesDiffer'
            n = sizes.pop() if sizes else 1
            self.places = [[self.target(a, True)[1] + (a[1] if a[1] is not None else i) for a in f[3]] for i in range(n)]
            if any(len(set(p)) < len(p) for p in self.places): return 'RepeatedQubit'
            g = self.gate(f[1])
            if self.items + g[4] * n > 4000000: return 'TooManyItems'
            try: vals = tuple(value(tree(a, []), []) for a in f[2])
            except Refused as e: return 'AngleRefused ' + str(e)
            j = self.judge(g, vals)
            if j[0] == 'err': return 'AngleRefused ' + j[1]
            if j[1] is None: return 'OffGrid'
            if any(q in self.measured for p in self.places for q in p): return 'Measured'
            if self.count + j[1] * n > 1000000: return 'TooManyGates'
            self.vals, self.add = vals, j[1] * n
        return None

    def do(self, f):
        k = f[0]
        if k == 'qreg': self.regs[f[1]] = (True, self.qubits, f[2]); self.qubits += f[2]
        if k == 'creg': self.regs[f[1]] = (False, 0, f[2])
        if k == 'measure':
            r = self.target(f[1], True)
            self.measured |= {r[1] + f[1][1]} if f[1][1] is not None else set(range(r[1], r[1] + r[2]))
        if k == 'gate':
            body = [(l[1], self.gate(l[1]), [tree(a, f[2]) for a in l[2]], [f[3].index(x) for x in l[3]]) for l in f[4] if l[0] == 'call']
            self.gates[f[1]] = ('d', len(f[3]), len(f[2]), 1 + max([b[1][3] for b in body] or [0]), sum(1 + b[1][4] for b in body), body)
        if k == 'call':
            g = self.gate(f[1])
            self.items += g[4] * len(self.places); self.count += self.add
            if self.count <= 5000:
                for p in self.places: self.expand(g, self.vals, p)
            else: self.list = None

def read(text, limit=64):
    """(reader, None) or (None, 'statement S: WHY')"""
    ts, bad = tokens(text)
    if not ts and bad is None: return None, 'statement 0: NoVersion'
    parts, cur, brace = [], [], False
    for t in ts:
        if t == ('mark', '}') or (t == ('mark', ';') and not brace):
            parts.append((cur, t[1])); cur, brace = [], False
        else:
            if t == ('mark', '{'): brace = True
            cur.append(t)
    if cur or bad is not None: parts.append((cur, None))
    r = Reader()
    for i, (p, end) in enumerate(parts, 1):
        def no(why): return None, 'statement %d: %s' % (i, why)
        if bad is not None and i == len(parts): return no('BadByte %d' % bad)
        if i == 1:
            if not (end == ';' and p == [('word', 'OPENQASM'), ('real', '2.0')]): return no('NoVersion')
            continue
        if end is None: return no('NotAStatement')
        if p and p[0][0] == 'word' and (p[0][1] in ('opaque', 'reset', 'if', 'U', 'CX') or p[0][1] in UNDEF and p[0][1] not in r.gates): return no('OutOfProfile')
        try: f = form(p, end)
        except No: return no('NotAStatement')
        if f[0] == 'version': return no('NotAStatement')
        why = r.reason(f, limit)
        if why: return no(why)
        r.do(f)
    return r, None

class Shape:
    def __init__(self, r): self.qubits, self.gates, self.measured = r.qubits, r.list, r.measured

def run(words, files):
    """status, out, err"""
    rs = []
    for i, text in enumerate(files, 1):
        r, why = read(text, 32 if words[0] == 'eq' else 64)
        if why: return 4, '', 'sliq: file %d %s\n' % (i, why)
        rs.append(Shape(r))
    if words[0] == 'sim': return 0, ''.join(l + '\n' for l in exact.sim(rs[0])), ''
    if words[0] == 'prob': return 0, ''.join(l + '\n' for l in exact.prob(rs[0])), ''
    lines = exact.eq(rs[0], rs[1])
    return (1 if lines[0] == 'differs' else 0), ''.join(l + '\n' for l in lines), ''
