// t and s behind a cx, on its control: a phase of the control commutes with it.
OPENQASM 2.0;
include "qelib1.inc";
qreg q[2];
cx q[0],q[1];
u1(3*pi/4) q[0];
