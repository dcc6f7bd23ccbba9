# For a 42X: a function that pushes a frame with stsku, spoils what is in it, and pops it with lsku; GNU as knows neither.
        .include "start.s"

        .globl  main
        .type   main, @function
main:   .long   0xF821FFEB              # stsku r1,-24(r1)
        .irp    r, 28, 29, 30, 31
        li      \r, -1
        .endr
        mtlr    31
        .long   0xE821001B              # lsku r1,24(r1)
        blr
        .size   main, .-main

        .data
drawer: .long   0
        .size   drawer, .-drawer
