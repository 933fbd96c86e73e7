// Cuccaro's adder of four bits by majority gates: b becomes a + b + q[0], and the last qubit is turned where that has a carry.
// q[0] is the carry in, q[1] q[3] q[5] q[7] are b and q[2] q[4] q[6] q[8] are a, lowest bit first, q[9] is the carry out.
OPENQASM 2.0;
include "qelib1.inc";
qreg q[10];
// upwards: the place of a takes the majority of a, b and the carry below
cx q[2],q[1]; cx q[2],q[0]; ccx q[0],q[1],q[2];
cx q[4],q[3]; cx q[4],q[2]; ccx q[2],q[3],q[4];
cx q[6],q[5]; cx q[6],q[4]; ccx q[4],q[5],q[6];
cx q[8],q[7]; cx q[8],q[6]; ccx q[6],q[7],q[8];
cx q[8],q[9];
// downwards: the majority is undone, and b takes the sum
ccx q[6],q[7],q[8]; cx q[8],q[6]; cx q[6],q[7];
ccx q[4],q[5],q[6]; cx q[6],q[4]; cx q[4],q[5];
ccx q[2],q[3],q[4]; cx q[4],q[2]; cx q[2],q[3];
ccx q[0],q[1],q[2]; cx q[2],q[0]; cx q[0],q[1];
