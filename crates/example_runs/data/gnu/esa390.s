# Two instructions that came after the G5, made of older ones. They go before what the compiler writes.

# LOAD ADDRESS RELATIVE LONG: the address of a place, from a constant behind the first instruction.
        .macro  larl register, place
        bras    \register, .+8
        .long   \place
        l       \register, 0(\register)
        .endm

# BRANCH RELATIVE AND SAVE LONG: the call of a function.
        .macro  brasl register, place
        larl    \register, \place
        basr    \register, \register
        .endm
