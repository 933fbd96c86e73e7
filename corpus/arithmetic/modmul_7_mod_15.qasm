// 7*x mod 15 on four bits, q[0] the highest. As 8*x mod 15 turns the four bits round by one place to the right, and 7 = -8 mod 15, what is left is -x mod 15,
// which turns all bits. 0 and 15, which are the same mod 15, are exchanged.
OPENQASM 2.0;
include "qelib1.inc";
qreg q[4];
swap q[2],q[3];
swap q[1],q[2];
swap q[0],q[1];
x q;
