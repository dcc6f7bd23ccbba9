# A copy by virtual doublewords, and at 0A0, the external vector since IVPR is zero, a handler that saves the registers of the
# copy with stvd, spoils them and restores them with lvd.
        .include "start.s"
        .include "doubleword.s"

        .org    0x0A0
external:
        stwu    1, -32(1)
        stvd    3, 8(1)
        stvd    5, 16(1)
        stvd    31, 24(1)               # r31 and r0
        .irp    r, 0, 3, 4, 5, 6, 31
        li      \r, -1
        .endr
        lvd     3, 8(1)
        lvd     5, 16(1)
        lvd     31, 24(1)
        addi    1, 1, 32
        rfi

main:   lis     3, from@ha
        addi    3, 3, from@l-8
        addi    31, 3, to-from
        li      0, 2
        mtctr   0
        wrteei  1
copy:   lvdu    5, 8(3)
        stvdu   5, 8(31)
        bdnz    copy
        wrteei  0
        blr

        .data
        .balign 8
from:   .long   0x11111111, 0x22222222, 0x33333333, 0x44444444
to:     .space  16
        .size   to, .-to
