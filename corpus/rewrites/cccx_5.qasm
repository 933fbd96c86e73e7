// x on q[4] under three controls; q[3] stands by.
OPENQASM 2.0;
include "qelib1.inc";
qreg q[5];
cccx q[0],q[1],q[2],q[4];
