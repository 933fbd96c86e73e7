// The Toffoli gate, and a sign where the three bits are 1, 0, 1.
OPENQASM 2.0;
include "qelib1.inc";
qreg q[3];
ccx q[0],q[1],q[2];
x q[1]; ccz q[0],q[1],q[2]; x q[1];
