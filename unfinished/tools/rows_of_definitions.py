import sys
sys.path.insert(0,'.')
import second
V='OPENQASM 2.0;'
def q(n,t): return [('part','%s qreg q[%d]; %s'%(V,n,t))]
chain=lambda k,last='': [('line','gate g1 a { x a; }')]+[('line','gate g%d a { g%d a; }'%(i,i-1)) for i in range(2,k+1)]
def doubles(k,first): return [('line','gate g1 a { %s }'%first)]+[('line','gate g%d a { g%d a; g%d a; }'%(i,i-1,i-1)) for i in range(2,k+1)]
head=lambda n: [('line',V),('line','qreg q[%d];'%n)]
thousand=[('line','gate e a { }'),('part','gate d a { '),(999,'part','e a; '),('line','}')]
million=thousand+[('part','gate c a { '),(1000,'part','d a; '),('line','}')]
out=[];ans=[]
def text(ls):
    s=''
    for l in ls:
        if l[0] in('line','part'): s+=l[1]+('\n' if l[0]=='line' else '')
        else: s+=(l[2]+('\n' if l[1]=='line' else ''))*l[0]
    return s
def emit(files):
    for f in files:
        out.append('file')
        for l in f:
            if l[0] in('line','part'): out.append('%s %s'%l)
            else: out.append('%ss %d %s'%(l[1],l[0],l[2]))
def told(st,o,e):
    ans.append('status %d'%st)
    for l in o.splitlines(): ans.append('out: '+l)
    for l in e.splitlines(): ans.append('err: '+l)
def row(name,*files,words=None,more=()):
    words=words or ['sim','a']
    out.append('row '+name); out.append('words '+' '.join(words))
    emit(files)
    out.extend(more)
    out.append('run'); out.append('')
    st,o,e=second.run(words,[text(f).encode() for f in files])
    ans.append('row '+name); told(st,o,e); ans.append('')
    return st,o,e
def note(t): out.append('# '+t)
def section(t): note(t); out.append('')

section('12. Gates that a text defines. The answers come from the definitions, by another program that shares nothing with this one.')
# readings
row('defined: a gate that makes a bell pair',q(2,'gate bell a,b { h a; cx a,b; } bell q[0],q[1];'))
row('defined: half a turn by a parameter',q(1,'gate r(w) a { rx(w/2) a; } r(pi) q[0];'))
row('defined: no calls in the body',q(1,'gate e a { } e q[0];'))
row('defined: rz',q(1,'gate rz(p) a { u1(p) a; } x q[0]; rz(pi/2) q[0];'))
row('defined: u3 by the standard header, and h',q(1,'gate u3(t,p,l) a { u1(l) a; ry(t) a; u1(p) a; } u3(pi/2,0,pi) q[0];'),q(1,'h q[0];'),words=['eq','a','b'])
row('defined: rzz, and what it is',q(2,'gate rzz(t) a,b { cx a,b; u1(t) b; cx a,b; } rzz(pi/2) q[0],q[1];'),q(2,'s q[0]; s q[1]; cz q[0],q[1];'),words=['eq','a','b'])
row('defined: rzz by another angle, and what it is not',q(2,'gate rzz(t) a,b { cx a,b; u1(t) b; cx a,b; } rzz(-pi/2) q[0],q[1];'),q(2,'s q[0]; s q[1]; cz q[0],q[1];'),words=['eq','a','b'])
row('defined: majority, and one of them measured',q(3,'creg c[1]; gate majority a,b,c { cx c,b; cx c,a; ccx a,b,c; } h q; majority q[0],q[1],q[2]; measure q[2] -> c[0];'),words=['prob','a'])
row('defined: a parameter that is no multiple of pi',q(1,'gate g(n) a { rx(pi/n) a; } g(2) q[0];'))
row('defined: one that no angle uses',q(1,'gate g(n) a { x a; } g(7/3) q[0];'))
row('defined: two parameters in their order',q(1,'gate g(v,w) a { ry(v) a; u1(w) a; } g(pi/2,pi/4) q[0];'))
row('defined: an inner call with the values of the outer one put in',q(1,'gate g(v,w) a { ry(v) a; u1(w) a; } gate f(w,v) a { g(w/2,v-w) a; } f(pi,5*pi/4) q[0];'))
row('defined: arguments that change places',q(3,'gate f a,b,c { x a; cx a,c; } gate g a,b,c { f c,a,b; } g q[0],q[1],q[2];'))
row('defined: controls in a body',q(3,'gate f(w) a,b,c { ccrx(w) a,b,c; } x q; f(pi) q[0],q[1],q[2];'))
row('defined: a whole register beside a place',q(1,'qreg r[3]; gate f a,b { x a; cx a,b; } f q[0],r;'))
row('defined: two whole registers, place by place',q(1,'qreg r[2]; qreg s[2]; gate f a,b { cx b,a; x b; } x r[0]; f r,s;'))
row('defined: on each place twice',q(2,'gate g a { h a; } g q; g q;'))
row('defined: a barrier that names one twice',q(2,'gate g a,b { barrier a,a,b; x b; } g q[0],q[1];'))
row('defined: no parameters, in two spellings',q(1,'gate g() a { x a; } g() q[0]; g q[0]; g q[0];'))
row('defined: a formal argument named sin',q(1,'gate g sin { x sin; } g q[0];'))
row('defined: a gate named sin',q(1,'gate sin a { x a; } sin q[0];'))
row('defined: a gate named as a register',q(1,'gate q a { x a; } q q[0];'))
row('defined: an angle of 64 tokens',q(1,'gate g(w) a { rx('+'-'*63+'w) a; } g(pi) q[0];'))
row('defined: a register named rz',q(1,'qreg rz[1]; x rz;'))
row('defined: 32 deep',head(1)+chain(32)+[('line','g32 q[0];')])
row('defined: built-in calls count no items',q(1,'gate g a { x a; } g q[0]; g q[0]; g q[0];'))
# ends
note('Where a statement ends.')
row('refused: a semicolon behind a body',q(1,'gate g a { x a; } ; x q[0];'))
row('refused: a brace behind nothing',q(1,'x q[0]; }'))
row('refused: an opaque gate that a brace ends',q(1,'opaque g a } x q[0];'))
row('refused: an opaque gate with a body',q(1,'opaque g a { ; } x q[0];'))
row('refused: braces in a call',q(1,'x q[0] { ; }'))
row('refused: a definition that ends at a semicolon',q(1,'gate g a;'))
row('refused: a definition without arguments',q(1,'gate g { x a; }'))
row('refused: a definition that does not end',q(1,'gate g a { x a;'))
row('refused: a last call that does not end',q(1,'gate g a { x a }'))
row('refused: braces within braces',q(1,'gate g a { x a; { y a; } }'))
row('refused: a definition within one',q(1,'gate g a { gate h b { } }'))
row('refused: a measurement in a body',q(1,'gate g a { measure a -> a; }'))
row('refused: a place in a body',q(1,'gate g a { x a[0]; }'))
row('refused: a place in the barrier of a body',q(1,'gate g a { barrier a[0]; }'))
row('refused: a gate named pi',q(1,'gate pi a { }'))
row('refused: a parameter named sin',q(1,'gate g(sin) a { }'))
row('refused: a semicolon in an angle of a body',q(1,'gate g(w) a { rx(w;w) a; }'))
row('refused: a brace in an angle of a body',q(1,'gate g(w) a { rx({) a; }'))
row('refused: a comma within parentheses',q(1,'gate g(w) a { rx((w,w)) a; }'))
row('refused: the primitive U in a body',q(1,'gate g a { U(0,0,0) a; }'))
# each reason of a definition, beside the next one that holds too
note('Each reason, beside a later one that holds too.')
row('refused: a bad byte in a body that does not end',q(1,'gate g a { x a; @ }'))
row('refused: no definition, of a name that is built in',q(1,'gate x a { foo a[0]; }'))
row('refused: rz within its own body',q(1,'gate rz(p) a { rz(p) a; }'))
row('refused: rz before its definition',q(1,'rz(pi) q[0]; gate rz(p) a { u1(p) a; }'))
row('refused: foo, and rz that nothing defines',q(1,'gate g a { foo a; rz(pi) a; }'))
row('refused: a gate within its own body',q(1,'gate g a { g a; }'))
row('refused: foo in a body of x',q(1,'gate x a { foo a; }'))
row('refused: a built-in name',q(1,'gate x a { h a; }'))
row('refused: the name ccz',q(3,'gate ccz a,b,c { h c; ccx a,b,c; h c; }'))
row('refused: a name twice',q(1,'gate g a { } gate g a { x b; }'))
row('refused: two parameters of one name',q(1,'gate g(w,w) a { x b; }'))
row('refused: a parameter named as an argument',q(1,'gate g(a) a { x a; }'))
row('refused: two arguments of one name',q(1,'gate g a,a { }'))
row('refused: no argument of the definition',q(1,'gate g a { h b; cx a; }'))
row('refused: a parameter as an argument',q(1,'gate g(w) a { x w; }'))
row('refused: the barrier of another argument',q(1,'gate g a { barrier b; cx a,a; }'))
row('refused: a count of arguments in a body, and one twice',q(1,'gate g a { cx a,a; h a,a; }'))
row('refused: a count of angles in a body',q(1,'gate r(w) a { rx(w/2) a; } gate v a { r a; }'))
row('refused: an argument twice, in a body',q(1,'gate g(w) a { cx a,a; rx(w+) a; }'))
row('refused: an argument twice, too deep',head(1)+chain(32)+[('line','gate g33(w) a,b { g32 a; cx b,b; }')])
row('refused: too deep, and an angle',head(1)+chain(32)+[('line','gate g33(w) a { g32 a; rx(w+) a; }')])
row('refused: 33 deep',head(1)+chain(33))
row('refused: an angle that is too long, uncalled',q(1,'gate g(w) a { rx('+'-'*64+'w) a; }'))
row('refused: an angle that is none, uncalled',q(1,'gate g(w) a { rx(w+) a; }'))
row('refused: an argument in an angle',q(1,'gate g(w) a { rx(a) a; }'))
row('refused: the first of two angles',q(1,'gate g(w) a { rx(w+) a; rx('+'-'*64+'w) a; }'))
# calls
row('refused: a call before the definition, of no register',q(1,'g r[0]; gate g a { }'))
row('refused: no register, and a place beyond',q(1,'gate g a,b { } g r[0],q[1];'))
row('refused: a place beyond, and a count',q(1,'gate g a { } g q[1],q[0];'))
row('refused: a count of arguments, and sizes',q(2,'qreg r[3]; gate g a { } g q,r;'))
row('refused: a count of angles',q(1,'gate r(w) a { rx(w/2) a; } r q[0];'))
row('refused: sizes, and a qubit twice',q(2,'qreg r[3]; gate f a,b,c { } f q,r,q;'))
row('refused: a qubit twice in a call',q(1,'gate g a,b { } g q[0],q[0];'))
row('refused: a qubit twice, too many items',head(2)+doubles(22,'')+[('line','gate two a,b { g22 a; } two q,q;')])
row('refused: too many items, and an angle',head(1)+doubles(22,'')+[('line','gate f(w) a { g22 a; } f(1/0) q[0];')])
row('refused: 4,194,302 items',head(1)+doubles(21,'x a; x a;')+[('line','g21 q[0];')])
row('refused: too many items by places',head(5)+million+[('line','c q;')])
note('Four calls of 1,000,000 items each are as many as there may be.')
row('refused: one item more than 4,000,000',head(1)+million+[(4,'line','c q[0];'),('line','gate one a { e a; }'),('line','one q[0];')])
row('refused: a divisor that becomes 0',q(1,'gate g(w) a { rx(pi/w) a; } g(0) q[0];'))
row('refused: the first angle of a body',q(1,'gate g(w) a { rx(w*w) a; rx(1/0) a; } g(pi) q[0];'))
row('refused: the angles of the call first',q(1,'gate g(v,w) a { rx(1/0) a; } g(pi,pi*pi) q[0];'))
row('refused: a value that no angle uses',q(1,'gate g(n) a { x a; } g(sin(0)) q[0];'))
row('refused: a part that is too wide',q(1,'gate g(n) a { rx(n*n*pi/n) a; } g(9223372036854775807) q[0];'))
row('refused: no multiple of pi in the end',q(1,'gate r(w) a { rx(w/2) a; } r(1) q[0];'))
row('refused: an angle behind one off its grid',q(1,'gate g(w) a { rx(pi/3) a; rx(w) a; } g(1) q[0];'))
row('refused: off its grid, and measured',q(1,'creg c[1]; gate r(w) a { rx(w/2) a; } measure q -> c; r(pi/3) q[0];'))
row('refused: off its grid two deep',q(1,'gate a(w) q { u1(w) q; } gate b(w) q { a(w/2) q; } b(pi/4) q[0];'))
row('refused: measured, with nothing to do',q(1,'creg c[1]; gate e a { } measure q[0] -> c[0]; e q[0];'))
row('refused: measured, and too many gates',head(1)+[('line','creg c[1];'),('line','measure q -> c;')]+doubles(20,'x a; x a;')+[('line','g20 q[0];')])
row('refused: 1,048,576 gates',head(1)+doubles(20,'x a; x a;')+[('line','g20 q[0];')])
row('refused: in the second of two texts',q(1,'gate g a { x a; } g q[0];'),q(1,'gate g a { x a; } g q[1];'),words=['eq','a','b'])
# fronts
def fronts(name,ls):
    st,o,e=row(name,ls,more=['fronts'])
    t=text(ls).encode(); ans.pop()
    def beside(w,whole):
        if not w: return 'none'
        if whole.startswith(w): return 'first %d of %d bytes'%(len(w),len(whole))
        return '"'+w.replace('\n','\\n')+'"'
    groups=[]
    for n in range(len(t)+1):
        a,b,c=second.run(['sim'],[t[:n]])
        end='status %d; out %s; err %s'%(a,beside(b,o),beside(c,e))
        if groups and groups[-1][2]==end: groups[-1][1]=n
        else: groups.append([n,n,end])
    for f,l,end in groups: ans.append('front of %s: %s'%(f if f==l else '%d to %d'%(f,l),end))
    ans.append('')
note('Within the names, the angles and the bodies of two definitions, and behind them.')
fronts('each front of a text with two definitions',[('line',V),('line','qreg q[2];'),('line','gate r(w) a { rx(w/2) a; }'),('line','gate f(w) a,b { h a; r(w) b; cx a,b; }'),('line','f(pi) q[0],q[1];')])
open('./rows.stdin','w').write('\n'.join(out))
open('./rows.stdout','w').write('\n'.join(ans))
print(sum(1 for l in out if l.startswith('row ')))
