// The same transform with its swap in front in place of behind: the gates stand on the qubits in the opposite order, and have their short names.
OPENQASM 2.0;
include "qelib1.inc";
qreg q[3];
swap q[0],q[2];
h q[2];
cs q[1],q[2];
ct q[0],q[2];
h q[1];
cs q[0],q[1];
h q[0];
