// The Fourier transform of three qubits on |101>, the number 5: the amplitude at y is w^(5y)/sqrt(8), with w = e^(2*pi*i/8).
OPENQASM 2.0;
include "qelib1.inc";
qreg q[3];
x q[0]; x q[2];
h q[0];
cu1(pi/2) q[1],q[0];
cu1(pi/4) q[2],q[0];
h q[1];
cu1(pi/2) q[2],q[1];
h q[2];
swap q[0],q[2];
