// Steane's code of seven qubits with x on the third and z on the sixth place as its errors. The checks correct both, each at the place whose number they show;
// then the code and the preparation h t h are undone. The outcomes are the data, which show 0 for certain, the checks of Z, 011 = 3, and those of X, 110 = 6.
OPENQASM 2.0;
include "qelib1.inc";
qreg q[7];
qreg z4[1]; qreg z2[1]; qreg z1[1];
qreg x4[1]; qreg x2[1]; qreg x1[1];
creg c[7];
h q[2]; t q[2]; h q[2];
cx q[2],q[4]; cx q[2],q[5];
h q[0]; cx q[0],q[2]; cx q[0],q[4]; cx q[0],q[6];
h q[1]; cx q[1],q[2]; cx q[1],q[5]; cx q[1],q[6];
h q[3]; cx q[3],q[4]; cx q[3],q[5]; cx q[3],q[6];
x q[2]; z q[5];
cx q[3],z4; cx q[4],z4; cx q[5],z4; cx q[6],z4;
cx q[1],z2; cx q[2],z2; cx q[5],z2; cx q[6],z2;
cx q[0],z1; cx q[2],z1; cx q[4],z1; cx q[6],z1;
h x4; cx x4,q[3]; cx x4,q[4]; cx x4,q[5]; cx x4,q[6]; h x4;
h x2; cx x2,q[1]; cx x2,q[2]; cx x2,q[5]; cx x2,q[6]; h x2;
h x1; cx x1,q[0]; cx x1,q[2]; cx x1,q[4]; cx x1,q[6]; h x1;
// the places in the order 7, 6, 4, 5, 1, 3, 2, so that one bit changes from each to the next
cccx z4,z2,z1,q[6]; cccz x4,x2,x1,q[6];
x z1; x x1; cccx z4,z2,z1,q[5]; cccz x4,x2,x1,q[5];
x z2; x x2; cccx z4,z2,z1,q[3]; cccz x4,x2,x1,q[3];
x z1; x x1; cccx z4,z2,z1,q[4]; cccz x4,x2,x1,q[4];
x z4; x x4; cccx z4,z2,z1,q[0]; cccz x4,x2,x1,q[0];
x z2; x x2; cccx z4,z2,z1,q[2]; cccz x4,x2,x1,q[2];
x z1; x x1; cccx z4,z2,z1,q[1]; cccz x4,x2,x1,q[1];
x z1; x z4; x x1; x x4;
// the code, undone
cx q[3],q[6]; cx q[3],q[5]; cx q[3],q[4]; h q[3];
cx q[1],q[6]; cx q[1],q[5]; cx q[1],q[2]; h q[1];
cx q[0],q[6]; cx q[0],q[4]; cx q[0],q[2]; h q[0];
cx q[2],q[5]; cx q[2],q[4];
h q[2]; tdg q[2]; h q[2];
measure q[2] -> c[0];
measure z4 -> c[1]; measure z2 -> c[2]; measure z1 -> c[3];
measure x4 -> c[4]; measure x2 -> c[5]; measure x1 -> c[6];
