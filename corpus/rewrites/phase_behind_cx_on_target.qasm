// t and s behind a cx, on its target, where they don't belong.
OPENQASM 2.0;
include "qelib1.inc";
qreg q[2];
cx q[0],q[1];
t q[1]; s q[1];
