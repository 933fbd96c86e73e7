// The same four t and tdg without the mixtures. On a fresh qubit it is the Toffoli gate, but not where that qubit is 1.
OPENQASM 2.0;
include "qelib1.inc";
qreg q[3];
h q[2];
t q[2]; cx q[0],q[2]; tdg q[2]; cx q[1],q[2]; t q[2]; cx q[0],q[2]; tdg q[2]; cx q[1],q[2];
h q[2];
s q[2];
