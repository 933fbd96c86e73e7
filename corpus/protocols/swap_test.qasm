// The swap test of |0> and h t h|0>. It shows 0 with probability (1 + p)/2, where p is the squared overlap of the two states:
// p = (2+sqrt(2))/4, so (6+sqrt(2))/8.
OPENQASM 2.0;
include "qelib1.inc";
qreg q[3];
creg c[1];
h q[2]; t q[2]; h q[2];
h q[0];
cswap q[0],q[1],q[2];
h q[0];
measure q[0] -> c[0];
