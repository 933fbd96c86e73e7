// The adder of four bits by increments, on the places of Cuccaro's: the carry in, and each bit of a, increments b and the carry out from its own place on.
OPENQASM 2.0;
include "qelib1.inc";
qreg q[10];
cccccx q[0],q[7],q[5],q[3],q[1],q[9]; ccccx q[0],q[5],q[3],q[1],q[7]; cccx q[0],q[3],q[1],q[5]; ccx q[0],q[1],q[3]; cx q[0],q[1];
cccccx q[2],q[7],q[5],q[3],q[1],q[9]; ccccx q[2],q[5],q[3],q[1],q[7]; cccx q[2],q[3],q[1],q[5]; ccx q[2],q[1],q[3]; cx q[2],q[1];
ccccx q[4],q[7],q[5],q[3],q[9]; cccx q[4],q[5],q[3],q[7]; ccx q[4],q[3],q[5]; cx q[4],q[3];
cccx q[6],q[7],q[5],q[9]; ccx q[6],q[5],q[7]; cx q[6],q[5];
ccx q[8],q[7],q[9]; cx q[8],q[7];
