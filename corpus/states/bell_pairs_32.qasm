// 32 Bell pairs of neighbouring qubits. The first and the last pair are measured: each shows 00 or 11, apart from the other.
OPENQASM 2.0;
include "qelib1.inc";
qreg q[64];
creg c[4];
h q[0]; cx q[0],q[1]; h q[2]; cx q[2],q[3]; h q[4]; cx q[4],q[5]; h q[6]; cx q[6],q[7];
h q[8]; cx q[8],q[9]; h q[10]; cx q[10],q[11]; h q[12]; cx q[12],q[13]; h q[14]; cx q[14],q[15];
h q[16]; cx q[16],q[17]; h q[18]; cx q[18],q[19]; h q[20]; cx q[20],q[21]; h q[22]; cx q[22],q[23];
h q[24]; cx q[24],q[25]; h q[26]; cx q[26],q[27]; h q[28]; cx q[28],q[29]; h q[30]; cx q[30],q[31];
h q[32]; cx q[32],q[33]; h q[34]; cx q[34],q[35]; h q[36]; cx q[36],q[37]; h q[38]; cx q[38],q[39];
h q[40]; cx q[40],q[41]; h q[42]; cx q[42],q[43]; h q[44]; cx q[44],q[45]; h q[46]; cx q[46],q[47];
h q[48]; cx q[48],q[49]; h q[50]; cx q[50],q[51]; h q[52]; cx q[52],q[53]; h q[54]; cx q[54],q[55];
h q[56]; cx q[56],q[57]; h q[58]; cx q[58],q[59]; h q[60]; cx q[60],q[61]; h q[62]; cx q[62],q[63];
measure q[0] -> c[0]; measure q[1] -> c[1]; measure q[62] -> c[2]; measure q[63] -> c[3];
