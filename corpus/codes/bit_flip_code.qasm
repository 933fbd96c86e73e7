// The bit flip code with x on d[1] as its error: the checks d[0] + d[1] and d[1] + d[2] both show 1, which names d[1]. It is turned back, and the data,
// h t h|0>, are as before: d[0] shows 0 with probability (2+sqrt(2))/4. The outcomes are d[0] and the two checks.
OPENQASM 2.0;
include "qelib1.inc";
qreg d[3];
qreg s[2];
creg c[3];
h d[0]; t d[0]; h d[0];
cx d[0],d[1]; cx d[0],d[2];
x d[1];
cx d[0],s[0]; cx d[1],s[0];
cx d[1],s[1]; cx d[2],s[1];
// checks 10, 11 and 01 name d[0], d[1] and d[2]
x s[1]; ccx s[0],s[1],d[0]; x s[1];
ccx s[0],s[1],d[1];
x s[0]; ccx s[0],s[1],d[2]; x s[0];
cx d[0],d[2]; cx d[0],d[1];
measure d[0] -> c[0];
measure s[0] -> c[1];
measure s[1] -> c[2];
