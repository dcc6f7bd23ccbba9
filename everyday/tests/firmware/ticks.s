# The ledger's start at address 0, and at 100, the decrementer's vector since IVPR is zero, a handler that counts ticks.
        .include "start.s"

        .org    0x100
decrementer:
        stwu    1, -16(1)
        stw     3, 8(1)
        stw     4, 12(1)
        lis     3, ticks@ha
        lwz     4, ticks@l(3)
        addi    4, 4, 1
        stw     4, ticks@l(3)
        li      4, 100                  # the next tick comes when DEC goes below 0
        mtdec   4
        lis     4, 0x0800               # TSR[DIS]: a 1 clears it
        mtspr   336, 4
        mfsrr1  4                       # after a wait it has WE set, and rfi would go back to sleep (D22)
        rlwinm  4, 4, 0, 14, 12         # all bits but WE
        mtsrr1  4
        lwz     3, 8(1)
        lwz     4, 12(1)
        addi    1, 1, 16
        rfi
