// The Toffoli gate by seven t and tdg, with one of them wrong: the first tdg is a t.
OPENQASM 2.0;
include "qelib1.inc";
qreg q[3];
h q[2];
cx q[1],q[2]; t q[2]; cx q[0],q[2]; t q[2];
cx q[1],q[2]; tdg q[2]; cx q[0],q[2]; t q[2];
t q[1];
h q[2];
cx q[0],q[1]; t q[0]; tdg q[1]; cx q[0],q[1];
