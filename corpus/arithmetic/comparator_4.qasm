// a < b for numbers of four bits, on even mixtures of all a and b: the last qubit takes 1 where a < b, which is where (15 - a) + b has a carry.
// q[0] is the carry in, q[1] q[3] q[5] q[7] are b and q[2] q[4] q[6] q[8] are a, lowest bit first. 120 of the 256 states have a 1 at the end.
OPENQASM 2.0;
include "qelib1.inc";
qreg q[9];
qreg less[1];
creg c[1];
h q[1]; h q[2]; h q[3]; h q[4]; h q[5]; h q[6]; h q[7]; h q[8];
x q[2]; x q[4]; x q[6]; x q[8];
cx q[2],q[1]; cx q[2],q[0]; ccx q[0],q[1],q[2];
cx q[4],q[3]; cx q[4],q[2]; ccx q[2],q[3],q[4];
cx q[6],q[5]; cx q[6],q[4]; ccx q[4],q[5],q[6];
cx q[8],q[7]; cx q[8],q[6]; ccx q[6],q[7],q[8];
cx q[8],less;
ccx q[6],q[7],q[8]; cx q[8],q[6]; cx q[8],q[7];
ccx q[4],q[5],q[6]; cx q[6],q[4]; cx q[6],q[5];
ccx q[2],q[3],q[4]; cx q[4],q[2]; cx q[4],q[3];
ccx q[0],q[1],q[2]; cx q[2],q[0]; cx q[2],q[1];
x q[2]; x q[4]; x q[6]; x q[8];
measure less -> c;
