// x + 5 mod 8, q[0] the highest bit: 4 is added by the highest bit alone, and 1 by an increment.
OPENQASM 2.0;
include "qelib1.inc";
qreg q[3];
x q[0];
ccx q[2],q[1],q[0];
cx q[2],q[1];
x q[2];
