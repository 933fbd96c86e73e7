// The graph state of a grid of three by three, row by row, with its corners measured in X, by h. A stabilizer is x on a place and z on its neighbours; those of
// the four corners together have no z left, since each neighbour is one of two corners. So the corners' bits have an even sum, and all eight such outcomes are even.
OPENQASM 2.0;
include "qelib1.inc";
qreg q[9];
creg c[4];
h q;
cz q[0],q[1]; cz q[1],q[2]; cz q[3],q[4]; cz q[4],q[5]; cz q[6],q[7]; cz q[7],q[8];
cz q[0],q[3]; cz q[3],q[6]; cz q[1],q[4]; cz q[4],q[7]; cz q[2],q[5]; cz q[5],q[8];
h q[0]; h q[2]; h q[6]; h q[8];
measure q[0] -> c[0]; measure q[2] -> c[1]; measure q[6] -> c[2]; measure q[8] -> c[3];
