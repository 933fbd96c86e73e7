// p becomes p + a*b mod 256 for a and b of four bits: the product of each pair of bits increments p from its place on.
// On even mixtures of all a and b: the listing is the multiplication table.
// a is q[0] to q[3], b is q[4] to q[7], p is q[8] to q[15], lowest bit first; q[16] is fresh, and holds one product after the other.
OPENQASM 2.0;
include "qelib1.inc";
qreg q[17];
h q[0]; h q[1]; h q[2]; h q[3]; h q[4]; h q[5];
h q[6]; h q[7];
ccx q[0],q[4],q[16]; ccccccccx q[16],q[14],q[13],q[12],q[11],q[10],q[9],q[8],q[15]; cccccccx q[16],q[13],q[12],q[11],q[10],q[9],q[8],q[14]; ccccccx q[16],q[12],q[11],q[10],q[9],q[8],q[13]; cccccx q[16],q[11],q[10],q[9],q[8],q[12]; ccccx q[16],q[10],q[9],q[8],q[11];
cccx q[16],q[9],q[8],q[10]; ccx q[16],q[8],q[9]; cx q[16],q[8]; ccx q[0],q[4],q[16];
ccx q[0],q[5],q[16]; cccccccx q[16],q[14],q[13],q[12],q[11],q[10],q[9],q[15]; ccccccx q[16],q[13],q[12],q[11],q[10],q[9],q[14]; cccccx q[16],q[12],q[11],q[10],q[9],q[13]; ccccx q[16],q[11],q[10],q[9],q[12]; cccx q[16],q[10],q[9],q[11];
ccx q[16],q[9],q[10]; cx q[16],q[9]; ccx q[0],q[5],q[16];
ccx q[0],q[6],q[16]; ccccccx q[16],q[14],q[13],q[12],q[11],q[10],q[15]; cccccx q[16],q[13],q[12],q[11],q[10],q[14]; ccccx q[16],q[12],q[11],q[10],q[13]; cccx q[16],q[11],q[10],q[12]; ccx q[16],q[10],q[11];
cx q[16],q[10]; ccx q[0],q[6],q[16];
ccx q[0],q[7],q[16]; cccccx q[16],q[14],q[13],q[12],q[11],q[15]; ccccx q[16],q[13],q[12],q[11],q[14]; cccx q[16],q[12],q[11],q[13]; ccx q[16],q[11],q[12]; cx q[16],q[11];
ccx q[0],q[7],q[16];
ccx q[1],q[4],q[16]; cccccccx q[16],q[14],q[13],q[12],q[11],q[10],q[9],q[15]; ccccccx q[16],q[13],q[12],q[11],q[10],q[9],q[14]; cccccx q[16],q[12],q[11],q[10],q[9],q[13]; ccccx q[16],q[11],q[10],q[9],q[12]; cccx q[16],q[10],q[9],q[11];
ccx q[16],q[9],q[10]; cx q[16],q[9]; ccx q[1],q[4],q[16];
ccx q[1],q[5],q[16]; ccccccx q[16],q[14],q[13],q[12],q[11],q[10],q[15]; cccccx q[16],q[13],q[12],q[11],q[10],q[14]; ccccx q[16],q[12],q[11],q[10],q[13]; cccx q[16],q[11],q[10],q[12]; ccx q[16],q[10],q[11];
cx q[16],q[10]; ccx q[1],q[5],q[16];
ccx q[1],q[6],q[16]; cccccx q[16],q[14],q[13],q[12],q[11],q[15]; ccccx q[16],q[13],q[12],q[11],q[14]; cccx q[16],q[12],q[11],q[13]; ccx q[16],q[11],q[12]; cx q[16],q[11];
ccx q[1],q[6],q[16];
ccx q[1],q[7],q[16]; ccccx q[16],q[14],q[13],q[12],q[15]; cccx q[16],q[13],q[12],q[14]; ccx q[16],q[12],q[13]; cx q[16],q[12]; ccx q[1],q[7],q[16];
ccx q[2],q[4],q[16]; ccccccx q[16],q[14],q[13],q[12],q[11],q[10],q[15]; cccccx q[16],q[13],q[12],q[11],q[10],q[14]; ccccx q[16],q[12],q[11],q[10],q[13]; cccx q[16],q[11],q[10],q[12]; ccx q[16],q[10],q[11];
cx q[16],q[10]; ccx q[2],q[4],q[16];
ccx q[2],q[5],q[16]; cccccx q[16],q[14],q[13],q[12],q[11],q[15]; ccccx q[16],q[13],q[12],q[11],q[14]; cccx q[16],q[12],q[11],q[13]; ccx q[16],q[11],q[12]; cx q[16],q[11];
ccx q[2],q[5],q[16];
ccx q[2],q[6],q[16]; ccccx q[16],q[14],q[13],q[12],q[15]; cccx q[16],q[13],q[12],q[14]; ccx q[16],q[12],q[13]; cx q[16],q[12]; ccx q[2],q[6],q[16];
ccx q[2],q[7],q[16]; cccx q[16],q[14],q[13],q[15]; ccx q[16],q[13],q[14]; cx q[16],q[13]; ccx q[2],q[7],q[16];
ccx q[3],q[4],q[16]; cccccx q[16],q[14],q[13],q[12],q[11],q[15]; ccccx q[16],q[13],q[12],q[11],q[14]; cccx q[16],q[12],q[11],q[13]; ccx q[16],q[11],q[12]; cx q[16],q[11];
ccx q[3],q[4],q[16];
ccx q[3],q[5],q[16]; ccccx q[16],q[14],q[13],q[12],q[15]; cccx q[16],q[13],q[12],q[14]; ccx q[16],q[12],q[13]; cx q[16],q[12]; ccx q[3],q[5],q[16];
ccx q[3],q[6],q[16]; cccx q[16],q[14],q[13],q[15]; ccx q[16],q[13],q[14]; cx q[16],q[13]; ccx q[3],q[6],q[16];
ccx q[3],q[7],q[16]; ccx q[16],q[14],q[15]; cx q[16],q[14]; ccx q[3],q[7],q[16];
