// Three Bell pairs: cx takes the places of a and b two by two.
OPENQASM 2.0;
qreg a[3];
qreg b[3];
h a;
cx a,b;
