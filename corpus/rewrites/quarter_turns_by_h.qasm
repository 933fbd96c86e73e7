// The same by h and phases: rx(a) is h u1(a) h up to a phase, ry(pi/2) is z and then h, ry(pi) is z and then x. Under a control the phase stays, as one of the control:
// crx(2*pi) is z there, and crx(-pi/2) is sdg between h and a t.
OPENQASM 2.0;
include "qelib1.inc";
qreg q[4];
h q[0]; s q[0]; h q[0];
z q[1]; h q[1];
x q[2];
z q[2];
cz q[0],q[3]; cx q[0],q[3];
h q[2]; csdg q[1],q[2]; h q[2]; t q[1];
