// x + 5 mod 8 by Draper's way: behind the Fourier transform adding 5 is the phase w^(5y) at y, which is one u1 a bit.
OPENQASM 2.0;
include "qelib1.inc";
qreg q[3];
h q[0]; cu1(pi/2) q[1],q[0]; cu1(pi/4) q[2],q[0];
h q[1]; cu1(pi/2) q[2],q[1];
h q[2];
// the bits of y stand upside down here, since the transform's swap is left out: q[0] is its lowest
u1(5*pi/4) q[0];
u1(5*pi/2) q[1];
u1(5*pi) q[2];
h q[2];
cu1(-pi/2) q[2],q[1]; h q[1];
cu1(-pi/4) q[2],q[0]; cu1(-pi/2) q[1],q[0]; h q[0];
