// x and then z on one qubit, under a control.
OPENQASM 2.0;
include "qelib1.inc";
qreg q[2];
cx q[0],q[1]; cz q[0],q[1];
