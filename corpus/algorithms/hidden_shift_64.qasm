// A hidden shift of 64 bits, 1001110101100010110111101000110101011001110000101101001011100110.
// f is the sum of x_i*y_i and of x_i*x_j*x_k for each three pairs in turn, mod 2, with x on even and y on odd places: a bent function, whose dual has the
// products of y in their place. The first oracle is that of f shifted, the second that of the dual; the shift comes for certain.
OPENQASM 2.0;
include "qelib1.inc";
qreg q[64];
h q;
x q[0]; x q[3]; x q[4]; x q[5]; x q[7]; x q[9]; x q[10]; x q[14];
x q[16]; x q[17]; x q[19]; x q[20]; x q[21]; x q[22]; x q[24]; x q[28];
x q[29]; x q[31]; x q[33]; x q[35]; x q[36]; x q[39]; x q[40]; x q[41];
x q[46]; x q[48]; x q[49]; x q[51]; x q[54]; x q[56]; x q[57]; x q[58];
x q[61]; x q[62];
cz q[0],q[1]; cz q[2],q[3]; cz q[4],q[5]; cz q[6],q[7]; cz q[8],q[9]; cz q[10],q[11]; cz q[12],q[13]; cz q[14],q[15];
cz q[16],q[17]; cz q[18],q[19]; cz q[20],q[21]; cz q[22],q[23]; cz q[24],q[25]; cz q[26],q[27]; cz q[28],q[29]; cz q[30],q[31];
cz q[32],q[33]; cz q[34],q[35]; cz q[36],q[37]; cz q[38],q[39]; cz q[40],q[41]; cz q[42],q[43]; cz q[44],q[45]; cz q[46],q[47];
cz q[48],q[49]; cz q[50],q[51]; cz q[52],q[53]; cz q[54],q[55]; cz q[56],q[57]; cz q[58],q[59]; cz q[60],q[61]; cz q[62],q[63];
ccz q[0],q[2],q[4]; ccz q[6],q[8],q[10]; ccz q[12],q[14],q[16]; ccz q[18],q[20],q[22]; ccz q[24],q[26],q[28]; ccz q[30],q[32],q[34]; ccz q[36],q[38],q[40]; ccz q[42],q[44],q[46];
ccz q[48],q[50],q[52]; ccz q[54],q[56],q[58];
x q[0]; x q[3]; x q[4]; x q[5]; x q[7]; x q[9]; x q[10]; x q[14];
x q[16]; x q[17]; x q[19]; x q[20]; x q[21]; x q[22]; x q[24]; x q[28];
x q[29]; x q[31]; x q[33]; x q[35]; x q[36]; x q[39]; x q[40]; x q[41];
x q[46]; x q[48]; x q[49]; x q[51]; x q[54]; x q[56]; x q[57]; x q[58];
x q[61]; x q[62];
h q;
cz q[0],q[1]; cz q[2],q[3]; cz q[4],q[5]; cz q[6],q[7]; cz q[8],q[9]; cz q[10],q[11]; cz q[12],q[13]; cz q[14],q[15];
cz q[16],q[17]; cz q[18],q[19]; cz q[20],q[21]; cz q[22],q[23]; cz q[24],q[25]; cz q[26],q[27]; cz q[28],q[29]; cz q[30],q[31];
cz q[32],q[33]; cz q[34],q[35]; cz q[36],q[37]; cz q[38],q[39]; cz q[40],q[41]; cz q[42],q[43]; cz q[44],q[45]; cz q[46],q[47];
cz q[48],q[49]; cz q[50],q[51]; cz q[52],q[53]; cz q[54],q[55]; cz q[56],q[57]; cz q[58],q[59]; cz q[60],q[61]; cz q[62],q[63];
ccz q[1],q[3],q[5]; ccz q[7],q[9],q[11]; ccz q[13],q[15],q[17]; ccz q[19],q[21],q[23]; ccz q[25],q[27],q[29]; ccz q[31],q[33],q[35]; ccz q[37],q[39],q[41]; ccz q[43],q[45],q[47];
ccz q[49],q[51],q[53]; ccz q[55],q[57],q[59];
h q;
