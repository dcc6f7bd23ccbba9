# lvd, lvdu, stvd and stvdu, which GNU as does not know, written as the manual does: lvd 3, 8(1). Registers and displacement
# are numbers.
        .macro  doubleword opcode, dt, d, ra:req
        .if     (\dt)>>5 | (\ra)>>5 | (\d+0x8000)>>16
        .error  "a register over 31, or a displacement outside -32768 to 32767"
        .endif
        .short  \opcode<<10 | (\dt)<<5 | \ra, \d
        .noaltmacro
        .endm

# Of 8(1) the % of .altmacro makes two operands, 8 and (1).
        .macro  lvd dt, ea:vararg
        .altmacro
        doubleword 5, \dt, %\ea
        .endm

        .macro  lvdu dt, ea:vararg
        .altmacro
        doubleword 9, \dt, %\ea
        .endm

        .macro  stvd ds, ea:vararg
        .altmacro
        doubleword 6, \ds, %\ea
        .endm

        .macro  stvdu ds, ea:vararg
        .altmacro
        doubleword 22, \ds, %\ea
        .endm
