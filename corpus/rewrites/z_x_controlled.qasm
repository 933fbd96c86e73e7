// z and then x on one qubit, under a control: the factor -1 became a sign of the control.
OPENQASM 2.0;
include "qelib1.inc";
qreg q[2];
cz q[0],q[1]; cx q[0],q[1];
