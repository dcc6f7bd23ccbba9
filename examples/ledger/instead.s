# What the compiler writes and the PPE 42 lacks, in instructions of the PPE 42; the assembler reads this file first.
# A load updates RA first, since its RT may be RB; a store updates RA last, since its RS may be RA.
        .macro  lha rt, ea:vararg
        lhz     \rt, \ea
        extsh   \rt, \rt
        .endm

        .macro  lhau rt, ea:vararg
        lhzu    \rt, \ea
        extsh   \rt, \rt
        .endm

        .macro  lhax rt, ea:vararg
        lhzx    \rt, \ea
        extsh   \rt, \rt
        .endm

        .macro  lhaux rt, ra, rb
        lhzux   \rt, \ra, \rb
        extsh   \rt, \rt
        .endm

        .macro  lbzux rt, ra, rb
        add     \ra, \ra, \rb
        lbz     \rt, 0(\ra)
        .endm

        .macro  lhzux rt, ra, rb
        add     \ra, \ra, \rb
        lhz     \rt, 0(\ra)
        .endm

        .macro  lwzux rt, ra, rb
        add     \ra, \ra, \rb
        lwz     \rt, 0(\ra)
        .endm

        .macro  stbux rs, ra, rb
        stbx    \rs, \ra, \rb
        add     \ra, \ra, \rb
        .endm

        .macro  sthux rs, ra, rb
        sthx    \rs, \ra, \rb
        add     \ra, \ra, \rb
        .endm

        .macro  stwux rs, ra, rb
        stwx    \rs, \ra, \rb
        add     \ra, \ra, \rb
        .endm

        .macro  lwsync
        sync
        .endm
