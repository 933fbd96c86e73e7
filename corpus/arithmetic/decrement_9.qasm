// x - 1 on nine bits, q[0] the highest: a bit is turned where all lower ones are 0. Written as -(-x + 1), all bits turned before and behind an increment,
// since turning all bits takes x to -x - 1.
OPENQASM 2.0;
include "qelib1.inc";
qreg q[9];
x q;
ccccccccx q[8],q[7],q[6],q[5],q[4],q[3],q[2],q[1],q[0];
cccccccx q[8],q[7],q[6],q[5],q[4],q[3],q[2],q[1];
ccccccx q[8],q[7],q[6],q[5],q[4],q[3],q[2];
cccccx q[8],q[7],q[6],q[5],q[4],q[3];
ccccx q[8],q[7],q[6],q[5],q[4];
cccx q[8],q[7],q[6],q[5];
ccx q[8],q[7],q[6];
cx q[8],q[7];
x q[8];
x q;
