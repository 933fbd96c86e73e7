// x under three controls by three Toffoli gates and a fresh qubit, q[3], on even mixtures of the controls. With q[3] at 0 it is right:
// eight states, q[4] is 1 where the first three are, and q[3] comes back to 0.
OPENQASM 2.0;
include "qelib1.inc";
qreg q[5];
h q[0]; h q[1]; h q[2];
ccx q[0],q[1],q[3];
ccx q[3],q[2],q[4];
ccx q[0],q[1],q[3];
