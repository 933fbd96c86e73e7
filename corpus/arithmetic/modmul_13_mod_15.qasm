// 13*x mod 15 on four bits: the inverse of 7*x, since 7*13 = 91 = 1 mod 15. Written as -2*x: round by one place to the left, and all bits turned.
OPENQASM 2.0;
include "qelib1.inc";
qreg q[4];
swap q[0],q[1];
swap q[1],q[2];
swap q[2],q[3];
x q;
