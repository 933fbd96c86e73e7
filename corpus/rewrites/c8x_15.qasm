// x on q[14] under eight controls, q[0] to q[7]; q[8] to q[13] stand by.
OPENQASM 2.0;
include "qelib1.inc";
qreg q[15];
ccccccccx q[0],q[1],q[2],q[3],q[4],q[5],q[6],q[7],q[14];
