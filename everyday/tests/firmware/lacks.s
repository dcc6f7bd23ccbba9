# A firmware with two words that the PPE 42 lacks: mulli, and lmw behind a label of its own.
        .include "start.s"
        .globl  main
        .type   main, @function
main:   mulli   3, 3, 5
        blr
        .size   main, .-main
spare:  lmw     28, 0(3)
        blr
