// Two doubly controlled NOTs with a common target.
OPENQASM 2.0;
include "qelib1.inc";
qreg a[3];
qreg t[1];
ccx a[0],a[1],t[0];
ccx a[1],a[2],t[0];
