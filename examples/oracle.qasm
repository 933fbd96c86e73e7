// An oracle with eight controls marks 10110101 by a sign: here on an even mixture of 10110100 and 10110101.
OPENQASM 2.0;
include "qelib1.inc";
qreg q[8];
qreg t[1];
x q[0]; x q[2]; x q[3]; x q[5];
h q[7];
// t stands at |->, so that turning it is a sign
x t; h t;
x q[1]; x q[4]; x q[6];
ccccccccx q[0],q[1],q[2],q[3],q[4],q[5],q[6],q[7],t[0];
x q[1]; x q[4]; x q[6];
h t; x t;
