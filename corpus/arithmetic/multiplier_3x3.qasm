// p becomes p + a*b mod 64 for a and b of three bits: the product of each pair of bits increments p from its place on.
// a is q[0] to q[2], b is q[3] to q[5], p is q[6] to q[11], lowest bit first; q[12] is fresh, and holds one product after the other.
OPENQASM 2.0;
include "qelib1.inc";
qreg q[13];
ccx q[0],q[3],q[12]; ccccccx q[12],q[10],q[9],q[8],q[7],q[6],q[11]; cccccx q[12],q[9],q[8],q[7],q[6],q[10]; ccccx q[12],q[8],q[7],q[6],q[9]; cccx q[12],q[7],q[6],q[8]; ccx q[12],q[6],q[7];
cx q[12],q[6]; ccx q[0],q[3],q[12];
ccx q[0],q[4],q[12]; cccccx q[12],q[10],q[9],q[8],q[7],q[11]; ccccx q[12],q[9],q[8],q[7],q[10]; cccx q[12],q[8],q[7],q[9]; ccx q[12],q[7],q[8]; cx q[12],q[7];
ccx q[0],q[4],q[12];
ccx q[0],q[5],q[12]; ccccx q[12],q[10],q[9],q[8],q[11]; cccx q[12],q[9],q[8],q[10]; ccx q[12],q[8],q[9]; cx q[12],q[8]; ccx q[0],q[5],q[12];
ccx q[1],q[3],q[12]; cccccx q[12],q[10],q[9],q[8],q[7],q[11]; ccccx q[12],q[9],q[8],q[7],q[10]; cccx q[12],q[8],q[7],q[9]; ccx q[12],q[7],q[8]; cx q[12],q[7];
ccx q[1],q[3],q[12];
ccx q[1],q[4],q[12]; ccccx q[12],q[10],q[9],q[8],q[11]; cccx q[12],q[9],q[8],q[10]; ccx q[12],q[8],q[9]; cx q[12],q[8]; ccx q[1],q[4],q[12];
ccx q[1],q[5],q[12]; cccx q[12],q[10],q[9],q[11]; ccx q[12],q[9],q[10]; cx q[12],q[9]; ccx q[1],q[5],q[12];
ccx q[2],q[3],q[12]; ccccx q[12],q[10],q[9],q[8],q[11]; cccx q[12],q[9],q[8],q[10]; ccx q[12],q[8],q[9]; cx q[12],q[8]; ccx q[2],q[3],q[12];
ccx q[2],q[4],q[12]; cccx q[12],q[10],q[9],q[11]; ccx q[12],q[9],q[10]; cx q[12],q[9]; ccx q[2],q[4],q[12];
ccx q[2],q[5],q[12]; ccx q[12],q[10],q[11]; cx q[12],q[10]; ccx q[2],q[5],q[12];
