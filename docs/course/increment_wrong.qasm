// The same with its lines in another order.
OPENQASM 2.0;
include "qelib1.inc";
qreg q[4];
cccx q[3],q[2],q[1],q[0];
cx q[3],q[2];
ccx q[3],q[2],q[1];
x q[3];
