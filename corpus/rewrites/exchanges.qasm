// Three gates of two qubits: swap, cz, and cx from the second to the first.
OPENQASM 2.0;
include "qelib1.inc";
qreg q[6];
swap q[0],q[1];
cz q[2],q[3];
cx q[5],q[4];
