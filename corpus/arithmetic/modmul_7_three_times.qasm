// 7*x mod 15 three times, by cx in place of swap. As 7^3 = 343 = 13 mod 15, it is 13*x.
OPENQASM 2.0;
include "qelib1.inc";
qreg q[4];
cx q[2],q[3]; cx q[3],q[2]; cx q[2],q[3];
cx q[1],q[2]; cx q[2],q[1]; cx q[1],q[2];
cx q[0],q[1]; cx q[1],q[0]; cx q[0],q[1];
x q;
cx q[2],q[3]; cx q[3],q[2]; cx q[2],q[3];
cx q[1],q[2]; cx q[2],q[1]; cx q[1],q[2];
cx q[0],q[1]; cx q[1],q[0]; cx q[0],q[1];
x q;
cx q[2],q[3]; cx q[3],q[2]; cx q[2],q[3];
cx q[1],q[2]; cx q[2],q[1]; cx q[1],q[2];
cx q[0],q[1]; cx q[1],q[0]; cx q[0],q[1];
x q;
