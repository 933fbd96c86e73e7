// The surface code of distance three, nine qubits in three rows, with y on the middle one, q[4], as its error. The checks of X are on 0134, 4578, 12, 67, those
// of Z on 1245, 3467, 03, 58. Those that have the middle one show 1, the first two of each. The outcomes are the checks of Z and then those of X.
OPENQASM 2.0;
include "qelib1.inc";
qreg q[9];
qreg zs[4];
qreg xs[4];
creg c[8];
// the logical zero: each check of X is spread from a corner that no other one has
h q[0]; cx q[0],q[1]; cx q[0],q[3]; cx q[0],q[4];
h q[8]; cx q[8],q[4]; cx q[8],q[5]; cx q[8],q[7];
h q[2]; cx q[2],q[1];
h q[6]; cx q[6],q[7];
y q[4];
cx q[1],zs[0]; cx q[2],zs[0]; cx q[4],zs[0]; cx q[5],zs[0];
cx q[3],zs[1]; cx q[4],zs[1]; cx q[6],zs[1]; cx q[7],zs[1];
cx q[0],zs[2]; cx q[3],zs[2];
cx q[5],zs[3]; cx q[8],zs[3];
h xs;
cx xs[0],q[0]; cx xs[0],q[1]; cx xs[0],q[3]; cx xs[0],q[4];
cx xs[1],q[4]; cx xs[1],q[5]; cx xs[1],q[7]; cx xs[1],q[8];
cx xs[2],q[1]; cx xs[2],q[2];
cx xs[3],q[6]; cx xs[3],q[7];
h xs;
measure zs[0] -> c[0]; measure zs[1] -> c[1]; measure zs[2] -> c[2]; measure zs[3] -> c[3];
measure xs[0] -> c[4]; measure xs[1] -> c[5]; measure xs[2] -> c[6]; measure xs[3] -> c[7];
