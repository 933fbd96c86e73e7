// The Toffoli gate by seven t and tdg: between the two h the product of three bits is a sum of parities, 4abc = a + b + c - (a+b) - (b+c) - (a+c) + (a+b+c), each
// sum in parentheses mod 2, and so many eighth turns give the sign of abc.
OPENQASM 2.0;
include "qelib1.inc";
qreg q[3];
h q[2];
cx q[1],q[2]; tdg q[2]; cx q[0],q[2]; t q[2];
cx q[1],q[2]; tdg q[2]; cx q[0],q[2]; t q[2];
t q[1];
h q[2];
cx q[0],q[1]; t q[0]; tdg q[1]; cx q[0],q[1];
