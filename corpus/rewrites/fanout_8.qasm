// A bit is added to seven others.
OPENQASM 2.0;
include "qelib1.inc";
qreg q[1];
qreg r[7];
cx q[0],r;
