// A full adder: q[2] becomes the sum of q[0], q[1], q[2] mod 2, and q[3] takes the carry. On even mixtures of all inputs: the table of a full adder,
// with q[1] holding q[0] + q[1].
OPENQASM 2.0;
include "qelib1.inc";
qreg q[4];
h q[0]; h q[1]; h q[2];
ccx q[0],q[1],q[3];
cx q[0],q[1];
ccx q[1],q[2],q[3];
cx q[1],q[2];
cx q[0],q[1];
