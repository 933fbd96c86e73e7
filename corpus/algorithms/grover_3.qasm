// Grover's search for 101 among eight, two steps: it is found with probability 121/128, and each other one comes with 1/128.
// A step takes the amplitudes (found, other) to (3f + 7o, 3o - f)/4 up to a sign: from (1,1) to (10,2)/4 and (44,-4)/16, over sqrt(8).
OPENQASM 2.0;
include "qelib1.inc";
qreg q[3];
h q;
// the oracle: a sign on 101
x q[1]; ccz q[0],q[1],q[2]; x q[1];
// the reflection about the even state
h q; x q; ccz q[0],q[1],q[2]; x q; h q;
x q[1]; ccz q[0],q[1],q[2]; x q[1];
h q; x q; ccz q[0],q[1],q[2]; x q; h q;
