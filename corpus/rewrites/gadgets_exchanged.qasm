// The same two gadgets in the opposite order, since diagonal gates commute, and their parities on other qubits.
OPENQASM 2.0;
include "qelib1.inc";
qreg q[4];
cx q[3],q[1]; cx q[2],q[1]; s q[1]; cx q[2],q[1]; cx q[3],q[1];
cx q[1],q[0]; cx q[2],q[0]; t q[0]; cx q[2],q[0]; cx q[1],q[0];
