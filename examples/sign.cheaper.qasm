OPENQASM 2.0;
include "qelib1.inc";
qreg q[2];
h q[1];
rz(pi/2) q[0];
rz(-pi/2) q[1];
cx q[0],q[1];
rz(-pi/2) q[1];
