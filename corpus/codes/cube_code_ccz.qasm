// The code of a cube's eight corners, whose three logical qubits get a ccz from t and tdg on single corners. q[v] is the corner with the coordinates of v in binary;
// its bit is the sum of the data at the coordinates that are 1, and of a bit that h makes even. The data, all even, stand on q[4], q[2], q[1]; behind the code
// the state is that of ccz: eight equal amplitudes, and a sign where all three are 1.
OPENQASM 2.0;
include "qelib1.inc";
qreg q[8];
h q[4]; h q[2]; h q[1];
cx q[4],q[6]; cx q[2],q[6]; cx q[4],q[5]; cx q[1],q[5]; cx q[2],q[3]; cx q[1],q[3];
cx q[4],q[7]; cx q[2],q[7]; cx q[1],q[7];
h q[0]; cx q[0],q[1]; cx q[0],q[2]; cx q[0],q[3]; cx q[0],q[4]; cx q[0],q[5]; cx q[0],q[6]; cx q[0],q[7];
// t where an even number of coordinates is 1, tdg where an odd one
t q[0]; tdg q[1]; tdg q[2]; t q[3]; tdg q[4]; t q[5]; t q[6]; tdg q[7];
cx q[0],q[7]; cx q[0],q[6]; cx q[0],q[5]; cx q[0],q[4]; cx q[0],q[3]; cx q[0],q[2]; cx q[0],q[1]; h q[0];
cx q[1],q[7]; cx q[2],q[7]; cx q[4],q[7];
cx q[1],q[3]; cx q[2],q[3]; cx q[1],q[5]; cx q[4],q[5]; cx q[2],q[6]; cx q[4],q[6];
