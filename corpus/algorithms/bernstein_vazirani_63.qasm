// Bernstein and Vazirani with 63 hidden bits, those whose place is 0 mod 3 or 2 mod 7, in 64 qubits:
// one call of f(x) = s*x mod 2 shows them for certain.
OPENQASM 2.0;
include "qelib1.inc";
qreg q[63];
qreg y[1];
creg c[63];
x y; h q; h y;
cx q[0],y; cx q[2],y; cx q[3],y; cx q[6],y; cx q[9],y; cx q[12],y; cx q[15],y; cx q[16],y; cx q[18],y; cx q[21],y; cx q[23],y; cx q[24],y;
cx q[27],y; cx q[30],y; cx q[33],y; cx q[36],y; cx q[37],y; cx q[39],y; cx q[42],y; cx q[44],y; cx q[45],y; cx q[48],y; cx q[51],y; cx q[54],y;
cx q[57],y; cx q[58],y; cx q[60],y;
h q;
measure q -> c;
