// H around gates of other qubits, and a turn between two flips.
OPENQASM 2.0;
include "qelib1.inc";
qreg q[3];
creg c[3];
h q[0];
cx q[1],q[2];
h q[0];
x q[1];
t q[1];
x q[1];
cx q[1],q[2];
measure q -> c;
