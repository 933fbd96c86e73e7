// The graph state of a ring of five, and then its stabilizers: x on a place and z on its neighbours, for each place. It stays the same state.
OPENQASM 2.0;
include "qelib1.inc";
qreg q[5];
h q;
cz q[0],q[1]; cz q[1],q[2]; cz q[2],q[3]; cz q[3],q[4]; cz q[4],q[0];
x q[0]; z q[4]; z q[1];
x q[1]; z q[0]; z q[2];
x q[2]; z q[1]; z q[3];
x q[3]; z q[2]; z q[4];
x q[4]; z q[3]; z q[0];
