// x becomes -x mod 8, with q[0] the highest bit: all bits are turned, and 1 is added.
OPENQASM 2.0;
include "qelib1.inc";
qreg q[3];
x q;
ccx q[2],q[1],q[0];
cx q[2],q[1];
x q[2];
