// Superdense coding: the message 11 travels by one qubit of a Bell pair.
// The four messages turn the pair into four orthogonal Bell states, so the receiver reads 11 for certain.
OPENQASM 2.0;
include "qelib1.inc";
qreg q[2];
creg c[2];
h q[0];
cx q[0],q[1];
// the sender touches q[0] alone
x q[0];
z q[0];
// the receiver has both
cx q[0],q[1];
h q[0];
measure q -> c;
