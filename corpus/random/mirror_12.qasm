// 60 drawn gates on 12 qubits, and then their inverses in the opposite order: |000000000000> comes back.
OPENQASM 2.0;
include "qelib1.inc";
qreg q[12];
tdg q[4]; x q[2]; h q[7]; t q[2]; swap q[7],q[11]; cz q[2],q[6]; s q[9]; ccx q[1],q[11],q[3]; x q[11]; h q[10];
swap q[11],q[5]; swap q[2],q[5]; cx q[11],q[3]; t q[11]; h q[8]; h q[4]; t q[8]; swap q[0],q[9]; s q[8]; x q[10];
cx q[10],q[8]; h q[7]; cx q[9],q[2]; cz q[10],q[1]; cx q[4],q[7]; h q[5]; h q[1]; ccx q[3],q[8],q[2]; h q[3]; t q[2];
ccx q[3],q[0],q[2]; cz q[2],q[11]; t q[9]; s q[5]; ccx q[3],q[2],q[8]; cx q[10],q[3]; cx q[0],q[9]; cx q[6],q[0]; t q[4]; cx q[11],q[7];
z q[8]; s q[9]; tdg q[0]; t q[0]; z q[1]; cz q[11],q[3]; cx q[7],q[6]; t q[3]; x q[2]; tdg q[11];
cx q[3],q[4]; cx q[2],q[5]; h q[3]; swap q[11],q[7]; tdg q[0]; ccx q[0],q[5],q[8]; h q[11]; cz q[5],q[0]; h q[10]; h q[9];
h q[9]; h q[10]; cz q[5],q[0]; h q[11]; ccx q[0],q[5],q[8]; t q[0]; swap q[11],q[7]; h q[3]; cx q[2],q[5]; cx q[3],q[4];
t q[11]; x q[2]; tdg q[3]; cx q[7],q[6]; cz q[11],q[3]; z q[1]; tdg q[0]; t q[0]; sdg q[9]; z q[8];
cx q[11],q[7]; tdg q[4]; cx q[6],q[0]; cx q[0],q[9]; cx q[10],q[3]; ccx q[3],q[2],q[8]; sdg q[5]; tdg q[9]; cz q[2],q[11]; ccx q[3],q[0],q[2];
tdg q[2]; h q[3]; ccx q[3],q[8],q[2]; h q[1]; h q[5]; cx q[4],q[7]; cz q[10],q[1]; cx q[9],q[2]; h q[7]; cx q[10],q[8];
x q[10]; sdg q[8]; swap q[0],q[9]; tdg q[8]; h q[4]; h q[8]; tdg q[11]; cx q[11],q[3]; swap q[2],q[5]; swap q[11],q[5];
h q[10]; x q[11]; ccx q[1],q[11],q[3]; sdg q[9]; cz q[2],q[6]; swap q[7],q[11]; tdg q[2]; h q[7]; x q[2]; t q[4];
