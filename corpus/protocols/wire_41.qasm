// A wire of measurements: h t h|0> goes through a line of 41 qubits. A step joins a qubit to a fresh even one by cz, takes its own bit to h, and corrects the
// next by it; each step applies h, so after forty the last qubit holds h t h|0>, and shows 0 with probability (2+sqrt(2))/4.
OPENQASM 2.0;
include "qelib1.inc";
qreg q[41];
creg c[1];
h q[0]; t q[0]; h q[0];
h q[1]; cz q[0],q[1]; h q[0]; cx q[0],q[1]; h q[2]; cz q[1],q[2]; h q[1]; cx q[1],q[2]; h q[3]; cz q[2],q[3]; h q[2]; cx q[2],q[3];
h q[4]; cz q[3],q[4]; h q[3]; cx q[3],q[4]; h q[5]; cz q[4],q[5]; h q[4]; cx q[4],q[5]; h q[6]; cz q[5],q[6]; h q[5]; cx q[5],q[6];
h q[7]; cz q[6],q[7]; h q[6]; cx q[6],q[7]; h q[8]; cz q[7],q[8]; h q[7]; cx q[7],q[8]; h q[9]; cz q[8],q[9]; h q[8]; cx q[8],q[9];
h q[10]; cz q[9],q[10]; h q[9]; cx q[9],q[10]; h q[11]; cz q[10],q[11]; h q[10]; cx q[10],q[11]; h q[12]; cz q[11],q[12]; h q[11]; cx q[11],q[12];
h q[13]; cz q[12],q[13]; h q[12]; cx q[12],q[13]; h q[14]; cz q[13],q[14]; h q[13]; cx q[13],q[14]; h q[15]; cz q[14],q[15]; h q[14]; cx q[14],q[15];
h q[16]; cz q[15],q[16]; h q[15]; cx q[15],q[16]; h q[17]; cz q[16],q[17]; h q[16]; cx q[16],q[17]; h q[18]; cz q[17],q[18]; h q[17]; cx q[17],q[18];
h q[19]; cz q[18],q[19]; h q[18]; cx q[18],q[19]; h q[20]; cz q[19],q[20]; h q[19]; cx q[19],q[20]; h q[21]; cz q[20],q[21]; h q[20]; cx q[20],q[21];
h q[22]; cz q[21],q[22]; h q[21]; cx q[21],q[22]; h q[23]; cz q[22],q[23]; h q[22]; cx q[22],q[23]; h q[24]; cz q[23],q[24]; h q[23]; cx q[23],q[24];
h q[25]; cz q[24],q[25]; h q[24]; cx q[24],q[25]; h q[26]; cz q[25],q[26]; h q[25]; cx q[25],q[26]; h q[27]; cz q[26],q[27]; h q[26]; cx q[26],q[27];
h q[28]; cz q[27],q[28]; h q[27]; cx q[27],q[28]; h q[29]; cz q[28],q[29]; h q[28]; cx q[28],q[29]; h q[30]; cz q[29],q[30]; h q[29]; cx q[29],q[30];
h q[31]; cz q[30],q[31]; h q[30]; cx q[30],q[31]; h q[32]; cz q[31],q[32]; h q[31]; cx q[31],q[32]; h q[33]; cz q[32],q[33]; h q[32]; cx q[32],q[33];
h q[34]; cz q[33],q[34]; h q[33]; cx q[33],q[34]; h q[35]; cz q[34],q[35]; h q[34]; cx q[34],q[35]; h q[36]; cz q[35],q[36]; h q[35]; cx q[35],q[36];
h q[37]; cz q[36],q[37]; h q[36]; cx q[36],q[37]; h q[38]; cz q[37],q[38]; h q[37]; cx q[37],q[38]; h q[39]; cz q[38],q[39]; h q[38]; cx q[38],q[39];
h q[40]; cz q[39],q[40]; h q[39]; cx q[39],q[40];
measure q[40] -> c[0];
