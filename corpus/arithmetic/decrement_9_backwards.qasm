// x - 1 on nine bits: the gates of x + 1 in the opposite order.
OPENQASM 2.0;
include "qelib1.inc";
qreg q[9];
x q[8];
cx q[8],q[7];
ccx q[8],q[7],q[6];
cccx q[8],q[7],q[6],q[5];
ccccx q[8],q[7],q[6],q[5],q[4];
cccccx q[8],q[7],q[6],q[5],q[4],q[3];
ccccccx q[8],q[7],q[6],q[5],q[4],q[3],q[2];
cccccccx q[8],q[7],q[6],q[5],q[4],q[3],q[2],q[1];
ccccccccx q[8],q[7],q[6],q[5],q[4],q[3],q[2],q[1],q[0];
