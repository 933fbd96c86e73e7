// x + 1 on four bits, q[0] the highest: a bit is turned where all lower ones are 1.
OPENQASM 2.0;
include "qelib1.inc";
qreg q[4];
cccx q[3],q[2],q[1],q[0];
ccx q[3],q[2],q[1];
cx q[3],q[2];
x q[3];
