// The phase flip code with z on d[2] as its error: the checks of X on d[0] d[1] and on d[1] d[2] show 0 and 1, which names d[2]. The data, h t h|0>, come back.
// The outcomes are d[0] and the two checks.
OPENQASM 2.0;
include "qelib1.inc";
qreg d[3];
qreg s[2];
creg c[3];
h d[0]; t d[0]; h d[0];
cx d[0],d[1]; cx d[0],d[2];
h d;
z d[2];
h s;
cx s[0],d[0]; cx s[0],d[1];
cx s[1],d[1]; cx s[1],d[2];
h s;
x s[1]; ccz s[0],s[1],d[0]; x s[1];
ccz s[0],s[1],d[1];
x s[0]; ccz s[0],s[1],d[2]; x s[0];
h d;
cx d[0],d[2]; cx d[0],d[1];
measure d[0] -> c[0];
measure s[0] -> c[1];
measure s[1] -> c[2];
