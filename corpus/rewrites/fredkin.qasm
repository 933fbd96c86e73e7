// The Fredkin gate: q[1] and q[2] are exchanged where q[0] is 1.
OPENQASM 2.0;
include "qelib1.inc";
qreg q[3];
cswap q[0],q[1],q[2];
