// The product of two bits on a fresh qubit by four t and tdg, on even mixtures of both: the Toffoli gate up to -i where both are 1, which s on the product puts right.
// The listing is the table of the product: |000>, |010>, |100>, |111>, with 1/2 each.
OPENQASM 2.0;
include "qelib1.inc";
qreg q[3];
h q[0]; h q[1];
h q[2];
t q[2]; cx q[0],q[2]; tdg q[2]; cx q[1],q[2]; t q[2]; cx q[0],q[2]; tdg q[2]; cx q[1],q[2];
h q[2];
s q[2];
