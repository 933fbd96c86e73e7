// Cuccaro's adder of 31 bits on even mixtures of all a and b, 2^62 states, with its carry measured: a + b has 32 bits for 2^30*(2^31 - 1) of the 2^62 pairs,
// so it shows 1 with probability (2^31 - 1)/2^32.
OPENQASM 2.0;
include "qelib1.inc";
qreg q[64];
creg c[1];
h q[1]; h q[2]; h q[3]; h q[4]; h q[5]; h q[6]; h q[7]; h q[8]; h q[9]; h q[10]; h q[11]; h q[12];
h q[13]; h q[14]; h q[15]; h q[16]; h q[17]; h q[18]; h q[19]; h q[20]; h q[21]; h q[22]; h q[23]; h q[24];
h q[25]; h q[26]; h q[27]; h q[28]; h q[29]; h q[30]; h q[31]; h q[32]; h q[33]; h q[34]; h q[35]; h q[36];
h q[37]; h q[38]; h q[39]; h q[40]; h q[41]; h q[42]; h q[43]; h q[44]; h q[45]; h q[46]; h q[47]; h q[48];
h q[49]; h q[50]; h q[51]; h q[52]; h q[53]; h q[54]; h q[55]; h q[56]; h q[57]; h q[58]; h q[59]; h q[60];
h q[61]; h q[62];
cx q[2],q[1]; cx q[2],q[0]; ccx q[0],q[1],q[2]; cx q[4],q[3]; cx q[4],q[2]; ccx q[2],q[3],q[4]; cx q[6],q[5]; cx q[6],q[4]; ccx q[4],q[5],q[6]; cx q[8],q[7]; cx q[8],q[6]; ccx q[6],q[7],q[8];
cx q[10],q[9]; cx q[10],q[8]; ccx q[8],q[9],q[10]; cx q[12],q[11]; cx q[12],q[10]; ccx q[10],q[11],q[12]; cx q[14],q[13]; cx q[14],q[12]; ccx q[12],q[13],q[14]; cx q[16],q[15]; cx q[16],q[14]; ccx q[14],q[15],q[16];
cx q[18],q[17]; cx q[18],q[16]; ccx q[16],q[17],q[18]; cx q[20],q[19]; cx q[20],q[18]; ccx q[18],q[19],q[20]; cx q[22],q[21]; cx q[22],q[20]; ccx q[20],q[21],q[22]; cx q[24],q[23]; cx q[24],q[22]; ccx q[22],q[23],q[24];
cx q[26],q[25]; cx q[26],q[24]; ccx q[24],q[25],q[26]; cx q[28],q[27]; cx q[28],q[26]; ccx q[26],q[27],q[28]; cx q[30],q[29]; cx q[30],q[28]; ccx q[28],q[29],q[30]; cx q[32],q[31]; cx q[32],q[30]; ccx q[30],q[31],q[32];
cx q[34],q[33]; cx q[34],q[32]; ccx q[32],q[33],q[34]; cx q[36],q[35]; cx q[36],q[34]; ccx q[34],q[35],q[36]; cx q[38],q[37]; cx q[38],q[36]; ccx q[36],q[37],q[38]; cx q[40],q[39]; cx q[40],q[38]; ccx q[38],q[39],q[40];
cx q[42],q[41]; cx q[42],q[40]; ccx q[40],q[41],q[42]; cx q[44],q[43]; cx q[44],q[42]; ccx q[42],q[43],q[44]; cx q[46],q[45]; cx q[46],q[44]; ccx q[44],q[45],q[46]; cx q[48],q[47]; cx q[48],q[46]; ccx q[46],q[47],q[48];
cx q[50],q[49]; cx q[50],q[48]; ccx q[48],q[49],q[50]; cx q[52],q[51]; cx q[52],q[50]; ccx q[50],q[51],q[52]; cx q[54],q[53]; cx q[54],q[52]; ccx q[52],q[53],q[54]; cx q[56],q[55]; cx q[56],q[54]; ccx q[54],q[55],q[56];
cx q[58],q[57]; cx q[58],q[56]; ccx q[56],q[57],q[58]; cx q[60],q[59]; cx q[60],q[58]; ccx q[58],q[59],q[60]; cx q[62],q[61]; cx q[62],q[60]; ccx q[60],q[61],q[62]; cx q[62],q[63]; ccx q[60],q[61],q[62]; cx q[62],q[60];
cx q[60],q[61]; ccx q[58],q[59],q[60]; cx q[60],q[58]; cx q[58],q[59]; ccx q[56],q[57],q[58]; cx q[58],q[56]; cx q[56],q[57]; ccx q[54],q[55],q[56]; cx q[56],q[54]; cx q[54],q[55]; ccx q[52],q[53],q[54]; cx q[54],q[52];
cx q[52],q[53]; ccx q[50],q[51],q[52]; cx q[52],q[50]; cx q[50],q[51]; ccx q[48],q[49],q[50]; cx q[50],q[48]; cx q[48],q[49]; ccx q[46],q[47],q[48]; cx q[48],q[46]; cx q[46],q[47]; ccx q[44],q[45],q[46]; cx q[46],q[44];
cx q[44],q[45]; ccx q[42],q[43],q[44]; cx q[44],q[42]; cx q[42],q[43]; ccx q[40],q[41],q[42]; cx q[42],q[40]; cx q[40],q[41]; ccx q[38],q[39],q[40]; cx q[40],q[38]; cx q[38],q[39]; ccx q[36],q[37],q[38]; cx q[38],q[36];
cx q[36],q[37]; ccx q[34],q[35],q[36]; cx q[36],q[34]; cx q[34],q[35]; ccx q[32],q[33],q[34]; cx q[34],q[32]; cx q[32],q[33]; ccx q[30],q[31],q[32]; cx q[32],q[30]; cx q[30],q[31]; ccx q[28],q[29],q[30]; cx q[30],q[28];
cx q[28],q[29]; ccx q[26],q[27],q[28]; cx q[28],q[26]; cx q[26],q[27]; ccx q[24],q[25],q[26]; cx q[26],q[24]; cx q[24],q[25]; ccx q[22],q[23],q[24]; cx q[24],q[22]; cx q[22],q[23]; ccx q[20],q[21],q[22]; cx q[22],q[20];
cx q[20],q[21]; ccx q[18],q[19],q[20]; cx q[20],q[18]; cx q[18],q[19]; ccx q[16],q[17],q[18]; cx q[18],q[16]; cx q[16],q[17]; ccx q[14],q[15],q[16]; cx q[16],q[14]; cx q[14],q[15]; ccx q[12],q[13],q[14]; cx q[14],q[12];
cx q[12],q[13]; ccx q[10],q[11],q[12]; cx q[12],q[10]; cx q[10],q[11]; ccx q[8],q[9],q[10]; cx q[10],q[8]; cx q[8],q[9]; ccx q[6],q[7],q[8]; cx q[8],q[6]; cx q[6],q[7]; ccx q[4],q[5],q[6]; cx q[6],q[4];
cx q[4],q[5]; ccx q[2],q[3],q[4]; cx q[4],q[2]; cx q[2],q[3]; ccx q[0],q[1],q[2]; cx q[2],q[0]; cx q[0],q[1];
measure q[63] -> c[0];
