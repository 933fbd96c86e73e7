// A bit is added to 63 others.
OPENQASM 2.0;
include "qelib1.inc";
qreg q[1];
qreg r[63];
cx q[0],r;
