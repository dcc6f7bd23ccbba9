# The ledger's start at address 0 and the vectors behind it, since IVPR is zero. A vector has room for eight instructions.
        .include "start.s"

        .macro  vector at, function
        .org    \at
\function\()_vector:
        stwu    1, -64(1)
        stw     3, 12(1)
        lis     3, \function@ha
        addi    3, 3, \function@l
        b       handle
        .endm

        vector  0x0A0, door             # external
        vector  0x120, tick             # fixed interval timer

# Calls the C function that r3 points to. The frame keeps what C may change: r0, r3 to r10, CR, CTR, LR and XER.
        .org    0x160                   # behind the last vector
handle: stw     0, 8(1)
        .irp    r, 4, 5, 6, 7, 8, 9, 10
        stw     \r, 4*\r(1)
        .endr
        mfcr    4
        stw     4, 44(1)
        mfctr   4
        stw     4, 48(1)
        mflr    4
        stw     4, 52(1)
        mfxer   4
        stw     4, 56(1)
        mtctr   3
        bctrl
        mfsrr1  4                       # after a wait it has WE set, and rfi would go back to sleep (D22)
        rlwinm  4, 4, 0, 14, 12         # all bits but WE
        mtsrr1  4
        lwz     4, 56(1)
        mtxer   4
        lwz     4, 52(1)
        mtlr    4
        lwz     4, 48(1)
        mtctr   4
        lwz     4, 44(1)
        mtcrf   0x80, 4                 # mtcr would write fields that the PPE 42 lacks
        lwz     0, 8(1)
        .irp    r, 3, 4, 5, 6, 7, 8, 9, 10
        lwz     \r, 4*\r(1)
        .endr
        addi    1, 1, 64
        rfi
