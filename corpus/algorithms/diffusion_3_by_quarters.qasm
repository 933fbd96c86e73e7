// The same reflection by quarter turns about y, which take |0> to the even state, and a Toffoli gate for the sign.
OPENQASM 2.0;
include "qelib1.inc";
qreg q[3];
ry(-pi/2) q;
x q;
h q[2]; ccx q[0],q[1],q[2]; h q[2];
x q;
ry(pi/2) q;
