// Grover's search for 011010111 among 512, 6 steps. With N = 512 a step takes the amplitudes (found, other), up to a sign, to
// ((1-2/N)f + (2-2/N)o, (1-2/N)o - (2/N)f), from (1, 1)/sqrt(N); so all others have the same one.
OPENQASM 2.0;
include "qelib1.inc";
qreg q[9];
h q;
x q[0]; x q[3]; x q[5]; ccccccccz q[0],q[1],q[2],q[3],q[4],q[5],q[6],q[7],q[8]; x q[0]; x q[3]; x q[5];
h q; x q; ccccccccz q[0],q[1],q[2],q[3],q[4],q[5],q[6],q[7],q[8]; x q; h q;
x q[0]; x q[3]; x q[5]; ccccccccz q[0],q[1],q[2],q[3],q[4],q[5],q[6],q[7],q[8]; x q[0]; x q[3]; x q[5];
h q; x q; ccccccccz q[0],q[1],q[2],q[3],q[4],q[5],q[6],q[7],q[8]; x q; h q;
x q[0]; x q[3]; x q[5]; ccccccccz q[0],q[1],q[2],q[3],q[4],q[5],q[6],q[7],q[8]; x q[0]; x q[3]; x q[5];
h q; x q; ccccccccz q[0],q[1],q[2],q[3],q[4],q[5],q[6],q[7],q[8]; x q; h q;
x q[0]; x q[3]; x q[5]; ccccccccz q[0],q[1],q[2],q[3],q[4],q[5],q[6],q[7],q[8]; x q[0]; x q[3]; x q[5];
h q; x q; ccccccccz q[0],q[1],q[2],q[3],q[4],q[5],q[6],q[7],q[8]; x q; h q;
x q[0]; x q[3]; x q[5]; ccccccccz q[0],q[1],q[2],q[3],q[4],q[5],q[6],q[7],q[8]; x q[0]; x q[3]; x q[5];
h q; x q; ccccccccz q[0],q[1],q[2],q[3],q[4],q[5],q[6],q[7],q[8]; x q; h q;
x q[0]; x q[3]; x q[5]; ccccccccz q[0],q[1],q[2],q[3],q[4],q[5],q[6],q[7],q[8]; x q[0]; x q[3]; x q[5];
h q; x q; ccccccccz q[0],q[1],q[2],q[3],q[4],q[5],q[6],q[7],q[8]; x q; h q;
