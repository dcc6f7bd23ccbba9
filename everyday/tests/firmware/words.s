# Words of which a list has more to say: branches to addresses, special-purpose registers, fields that no line writes, data with
# a label inside a word, zeros with a label between them.
        .include "start.s"
        .globl  main
        .type   main, @function
main:   mfspr   3, 336
        mtspr   272, 3
        cmpwi   3, 0
        beqa    start
        .long   0x4C820820              # bclr 4,2 with BH 01
        .long   0x7C000009              # tw 0,r0,r0 with TG
        .long   0x7C2000AC              # dcbf 0,r0 with a hint
        blr
        .size   main, .-main

        .data
first:  .short  0x1234
second: .short  0x5678
        .long   0, 0, 0, 0x1C630005     # mulli, which the PPE 42 lacks
zeros:  .space  12
more:   .space  64
