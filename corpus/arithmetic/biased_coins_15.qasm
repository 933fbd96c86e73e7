// How many of 15 biased coins h t h show 1. A coin does so with (2-sqrt(2))/4, so k ones come with the binomial coefficient of 15 over k times
// (2-sqrt(2))^k * (2+sqrt(2))^(15-k) of 4^15.
OPENQASM 2.0;
include "qelib1.inc";
qreg q[15];
qreg w[4];
creg c[4];
h q; t q; h q;
ccccx q[0],w[3],w[2],w[1],w[0]; cccx q[0],w[3],w[2],w[1]; ccx q[0],w[3],w[2]; cx q[0],w[3];
ccccx q[1],w[3],w[2],w[1],w[0]; cccx q[1],w[3],w[2],w[1]; ccx q[1],w[3],w[2]; cx q[1],w[3];
ccccx q[2],w[3],w[2],w[1],w[0]; cccx q[2],w[3],w[2],w[1]; ccx q[2],w[3],w[2]; cx q[2],w[3];
ccccx q[3],w[3],w[2],w[1],w[0]; cccx q[3],w[3],w[2],w[1]; ccx q[3],w[3],w[2]; cx q[3],w[3];
ccccx q[4],w[3],w[2],w[1],w[0]; cccx q[4],w[3],w[2],w[1]; ccx q[4],w[3],w[2]; cx q[4],w[3];
ccccx q[5],w[3],w[2],w[1],w[0]; cccx q[5],w[3],w[2],w[1]; ccx q[5],w[3],w[2]; cx q[5],w[3];
ccccx q[6],w[3],w[2],w[1],w[0]; cccx q[6],w[3],w[2],w[1]; ccx q[6],w[3],w[2]; cx q[6],w[3];
ccccx q[7],w[3],w[2],w[1],w[0]; cccx q[7],w[3],w[2],w[1]; ccx q[7],w[3],w[2]; cx q[7],w[3];
ccccx q[8],w[3],w[2],w[1],w[0]; cccx q[8],w[3],w[2],w[1]; ccx q[8],w[3],w[2]; cx q[8],w[3];
ccccx q[9],w[3],w[2],w[1],w[0]; cccx q[9],w[3],w[2],w[1]; ccx q[9],w[3],w[2]; cx q[9],w[3];
ccccx q[10],w[3],w[2],w[1],w[0]; cccx q[10],w[3],w[2],w[1]; ccx q[10],w[3],w[2]; cx q[10],w[3];
ccccx q[11],w[3],w[2],w[1],w[0]; cccx q[11],w[3],w[2],w[1]; ccx q[11],w[3],w[2]; cx q[11],w[3];
ccccx q[12],w[3],w[2],w[1],w[0]; cccx q[12],w[3],w[2],w[1]; ccx q[12],w[3],w[2]; cx q[12],w[3];
ccccx q[13],w[3],w[2],w[1],w[0]; cccx q[13],w[3],w[2],w[1]; ccx q[13],w[3],w[2]; cx q[13],w[3];
ccccx q[14],w[3],w[2],w[1],w[0]; cccx q[14],w[3],w[2],w[1]; ccx q[14],w[3],w[2]; cx q[14],w[3];
measure w -> c;
