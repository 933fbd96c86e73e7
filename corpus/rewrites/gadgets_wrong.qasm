// The same two gadgets, with the quarter turn's parity taken of q[1] + q[2] alone.
OPENQASM 2.0;
include "qelib1.inc";
qreg q[4];
cx q[2],q[1]; s q[1]; cx q[2],q[1];
cx q[1],q[0]; cx q[2],q[0]; t q[0]; cx q[2],q[0]; cx q[1],q[0];
