// The code of five qubits with y on q[2] as its error. The checks are XZZXI, IXZZX, XIXZZ, ZXIXZ. Y on q[2] doesn't commute with those that have X or Z there:
// the first, second and third, so they show 1110.
OPENQASM 2.0;
include "qelib1.inc";
qreg q[5];
qreg s[4];
creg c[4];
// the data, h t h|0>, stand between the ring's graph state and the same with z on all five
h q[0]; t q[0]; h q[0];
cx q[0],q[1]; cx q[0],q[2]; cx q[0],q[3]; cx q[0],q[4];
h q;
cz q[0],q[1]; cz q[1],q[2]; cz q[2],q[3]; cz q[3],q[4]; cz q[4],q[0];
y q[2];
h s;
cx s[0],q[0]; cz s[0],q[1]; cz s[0],q[2]; cx s[0],q[3];
cx s[1],q[1]; cz s[1],q[2]; cz s[1],q[3]; cx s[1],q[4];
cx s[2],q[0]; cx s[2],q[2]; cz s[2],q[3]; cz s[2],q[4];
cz s[3],q[0]; cx s[3],q[1]; cx s[3],q[3]; cz s[3],q[4];
h s;
measure s -> c;
