// The same with one h missing, the last.
OPENQASM 2.0;
include "qelib1.inc";
qreg q[6];
cx q[0],q[1]; h q[0]; h q[1]; cx q[0],q[1]; h q[0]; h q[1]; cx q[0],q[1];
h q[3]; cx q[2],q[3]; h q[3];
h q[4]; h q[5]; cx q[4],q[5]; h q[4];
