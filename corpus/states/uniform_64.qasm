// All 2^64 basis states with equal amplitudes; of the first and the last qubit all four outcomes come with 1/4.
OPENQASM 2.0;
include "qelib1.inc";
qreg q[64];
creg c[2];
h q;
measure q[0] -> c[0];
measure q[63] -> c[1];
