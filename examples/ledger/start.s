# The controller starts here, at address 0, and ends at the trap: with DBCR[TRAP] set the core halts there with code 3.
        .section .start, "ax"
        .globl  start
start:
        lis     1, stack@ha
        addi    1, 1, stack@l
        bl      main
        trap
