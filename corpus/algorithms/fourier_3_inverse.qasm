// The inverse Fourier transform of three qubits on the even state of period 2 with signs, |000> - |001> + |010> - .., over sqrt(8).
// It is the transform of the number 4, so |100> comes for certain.
OPENQASM 2.0;
include "qelib1.inc";
qreg q[3];
creg c[3];
h q;
z q[2];
swap q[0],q[2];
h q[2];
cu1(-pi/2) q[2],q[1];
h q[1];
cu1(-pi/4) q[2],q[0];
cu1(-pi/2) q[1],q[0];
h q[0];
measure q -> c;
