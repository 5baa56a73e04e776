.memory 32768
.entry FFFFFC0000002000
.stack FFFFFC0000004000
.table 0
.at 00002000
BLBS R16,receiver
LDA R1,1(R31)
STQ R1,64(R30)
LDA R16,1(R31)
wripir
halt
receiver:
LDA R16,-8148(R30)
wrent
LDA R16,0(R31)
swpipl
halt
handler:
MB R0,R0
LDQ R2,112(R30)
rti
