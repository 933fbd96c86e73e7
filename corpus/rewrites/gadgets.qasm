// Two phase gadgets: an eighth turn where q[0] + q[1] + q[2] is odd, and a quarter turn where q[1] + q[2] + q[3] is odd.
OPENQASM 2.0;
include "qelib1.inc";
qreg q[4];
cx q[0],q[1]; cx q[1],q[2]; t q[2]; cx q[1],q[2]; cx q[0],q[1];
cx q[1],q[2]; cx q[2],q[3]; s q[3]; cx q[2],q[3]; cx q[1],q[2];
