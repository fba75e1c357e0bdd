OPENQASM 2.0;
include "qelib1.inc";
qreg q[3];
creg c[3];
rz(-pi/4) q[1];
measure q -> c;
