// 7*x mod 15 four times. As 7^4 = 2401 = 1 mod 15, it is the identity.
OPENQASM 2.0;
include "qelib1.inc";
qreg q[4];
swap q[2],q[3]; swap q[1],q[2]; swap q[0],q[1]; x q;
swap q[2],q[3]; swap q[1],q[2]; swap q[0],q[1]; x q;
swap q[2],q[3]; swap q[1],q[2]; swap q[0],q[1]; x q;
swap q[2],q[3]; swap q[1],q[2]; swap q[0],q[1]; x q;
