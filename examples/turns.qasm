// A Bell state up to a phase, made by quarter turns and one cz.
OPENQASM 2.0;
include "qelib1.inc";
qreg q[2];
ry(pi/2) q[0];          // |0> + |1>
rx(-pi/2) q[1];         // |0> + i|1>
cz q[0],q[1];
rx(3*pi/4 - pi/4) q[1]; // a quarter turn back
