// Grover's search for 0110 among sixteen, three steps: it is found with probability 63001/65536 = (251/256)^2.
// A step takes the amplitudes (found, other) to (7f + 15o, 7o - f)/8 up to a sign: (1,1), (22,6)/8, (244,20)/64, (2008,-104)/512, over 4.
OPENQASM 2.0;
include "qelib1.inc";
qreg q[4];
h q;
x q[0]; x q[3]; cccz q[0],q[1],q[2],q[3]; x q[0]; x q[3];
h q; x q; cccz q[0],q[1],q[2],q[3]; x q; h q;
x q[0]; x q[3]; cccz q[0],q[1],q[2],q[3]; x q[0]; x q[3];
h q; x q; cccz q[0],q[1],q[2],q[3]; x q; h q;
x q[0]; x q[3]; cccz q[0],q[1],q[2],q[3]; x q[0]; x q[3];
h q; x q; cccz q[0],q[1],q[2],q[3]; x q; h q;
