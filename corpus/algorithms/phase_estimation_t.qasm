// Phase estimation of t on its eigenstate |1>: the phase is 1/8 of a turn, which three bits hold exactly, so 001 comes for certain.
OPENQASM 2.0;
include "qelib1.inc";
qreg e[3];
qreg u[1];
creg c[3];
x u;
h e;
// e[0] controls the fourth power of t, e[1] the second, e[2] the first
cz e[0],u;
cs e[1],u;
ct e[2],u;
// the inverse Fourier transform
swap e[0],e[2];
h e[2];
cu1(-pi/2) e[2],e[1];
h e[1];
cu1(-pi/4) e[2],e[0];
cu1(-pi/2) e[1],e[0];
h e[0];
measure e -> c;
