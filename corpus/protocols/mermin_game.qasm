// Mermin's game: three players get bits x, y, z whose sum is even, and win where their answers' sum is odd exactly if some bit is 1.
// With a GHZ state they always win, so lost shows 0 for certain; without it 3/4 is best.
OPENQASM 2.0;
include "qelib1.inc";
qreg x[1];
qreg y[1];
qreg z[1];
qreg q[3];
qreg lost[1];
creg c[1];
h x;
h y;
cx x,z;
cx y,z;
h q[0];
cx q[0],q[1];
cx q[0],q[2];
// each measures X where its bit is 0, and Y where it is 1
csdg x,q[0];
csdg y,q[1];
csdg z,q[2];
h q;
cx q[0],lost;
cx q[1],lost;
cx q[2],lost;
// lost is turned where x or y or z is 1; as z = x + y mod 2, that is where x or y is 1
cx x,lost;
cx y,lost;
ccx x,y,lost;
measure lost -> c;
