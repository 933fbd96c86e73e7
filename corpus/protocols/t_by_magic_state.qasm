// The gate T by a magic state: q[0] holds the data, h|0>, and q[1] the state T h|0>. After cx q[0],q[1] a 1 in q[1] is corrected by s.
// Up to an even bit in q[1], q[0] holds T h|0>; a last h makes it the coin h t h, which shows 0 with probability (2+sqrt(2))/4.
OPENQASM 2.0;
include "qelib1.inc";
qreg q[2];
creg c[1];
h q[0];
h q[1];
t q[1];
cx q[0],q[1];
cs q[1],q[0];
h q[0];
measure q[0] -> c[0];
