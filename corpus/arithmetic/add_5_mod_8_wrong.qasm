// x + 5 mod 8 by Draper's way, with one phase wrong: 4*pi/4 where 5*pi/4 is due.
OPENQASM 2.0;
include "qelib1.inc";
qreg q[3];
h q[0]; cu1(pi/2) q[1],q[0]; cu1(pi/4) q[2],q[0];
h q[1]; cu1(pi/2) q[2],q[1];
h q[2];
u1(4*pi/4) q[0];
u1(5*pi/2) q[1];
u1(5*pi) q[2];
h q[2];
cu1(-pi/2) q[2],q[1]; h q[1];
cu1(-pi/4) q[2],q[0]; cu1(-pi/2) q[1],q[0]; h q[0];
