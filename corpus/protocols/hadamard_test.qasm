// The Hadamard test of T h on the state |0>: q[0] shows 0 with probability (1 + r)/2, where r is the real part of <0|T h|0> = 1/sqrt(2).
// So it is (2+sqrt(2))/4.
OPENQASM 2.0;
include "qelib1.inc";
qreg q[2];
creg c[1];
h q[0];
ch q[0],q[1];
ct q[0],q[1];
h q[0];
measure q[0] -> c[0];
