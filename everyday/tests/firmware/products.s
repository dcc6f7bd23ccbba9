# For a 42X: products, a doubleword turned by a word, DEC on timer input 3, a load from outside, and at 020, the machine check's
# vector since IVPR is zero, the trap that ends the run.
        .include "start.s"

        .org    0x020
machine_check:
        trap

        .globl  main
        .type   main, @function
main:   li      3, 1000
        mulli   4, 3, -5
        mullw   5, 4, 3
        .long   0x789C0002              # rldicl r28,r4,32,0: GNU as wants 64 bits for it
        lis     6, 0x0060               # TCR[DS] 11
        mtspr   340, 6
        lis     7, 1
        lwz     7, 0(7)
        blr
        .size   main, .-main
