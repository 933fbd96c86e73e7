// 18 Bell pairs, declared as all first halves and then all second ones.
OPENQASM 2.0;
qreg a[18];
qreg b[18];
creg c[2];
h a;
cx a,b;
measure a[0] -> c[0];
measure b[0] -> c[1];
