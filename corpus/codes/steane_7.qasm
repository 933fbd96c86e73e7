// Steane's code of seven qubits with y on the fifth, q[4], as its error. A check takes the places whose number, 1 to 7, has a given bit:
// so both triples of checks, of Z and of X, show the number of the place, 101 = 5. The outcomes are the three checks of Z and the three of X, highest bit first.
OPENQASM 2.0;
include "qelib1.inc";
qreg q[7];
qreg z4[1]; qreg z2[1]; qreg z1[1];
qreg x4[1]; qreg x2[1]; qreg x1[1];
creg c[6];
// the data, h t h|0> on place 3, are spread over places 3, 5, 6
h q[2]; t q[2]; h q[2];
cx q[2],q[4]; cx q[2],q[5];
// places 1, 2, 4 spread the checks of X
h q[0]; cx q[0],q[2]; cx q[0],q[4]; cx q[0],q[6];
h q[1]; cx q[1],q[2]; cx q[1],q[5]; cx q[1],q[6];
h q[3]; cx q[3],q[4]; cx q[3],q[5]; cx q[3],q[6];
y q[4];
// the checks of Z, which see bit flips
cx q[3],z4; cx q[4],z4; cx q[5],z4; cx q[6],z4;
cx q[1],z2; cx q[2],z2; cx q[5],z2; cx q[6],z2;
cx q[0],z1; cx q[2],z1; cx q[4],z1; cx q[6],z1;
// the checks of X, which see phase flips
h x4; cx x4,q[3]; cx x4,q[4]; cx x4,q[5]; cx x4,q[6]; h x4;
h x2; cx x2,q[1]; cx x2,q[2]; cx x2,q[5]; cx x2,q[6]; h x2;
h x1; cx x1,q[0]; cx x1,q[2]; cx x1,q[4]; cx x1,q[6]; h x1;
measure z4 -> c[0]; measure z2 -> c[1]; measure z1 -> c[2];
measure x4 -> c[3]; measure x2 -> c[4]; measure x1 -> c[5];
