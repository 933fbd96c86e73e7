// A Toffoli gate by four t and tdg, up to a phase of its controls: -i where both are 1.
OPENQASM 2.0;
include "qelib1.inc";
qreg q[3];
h q[2];
t q[2]; cx q[0],q[2]; tdg q[2]; cx q[1],q[2]; t q[2]; cx q[0],q[2]; tdg q[2]; cx q[1],q[2];
h q[2];
