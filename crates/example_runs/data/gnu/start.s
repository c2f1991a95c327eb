# What a C program stands on: a stack, the call of main, an end, and a console. A function has its operands in registers
# 2 and 3 and its result in register 2, returns by register 14, and has its stack at register 15.

        .text
        basr    %r13,0
base:   l       %r15,stack-base(%r13)
        l       %r1,program-base(%r13)
        basr    %r14,%r1
        lpsw    done-base(%r13)

        .balign 8
done:   .long   0x000a0000, 0x80000000  # a PSW that waits for nothing
stack:  .long   top-96                  # above it main may save its caller's registers
program:
        .long   main

        .globl  get
get:    diag    %r2,%r3,0x104           # register 3 becomes the number of bytes read
        lr      %r2,%r3
        br      %r14

        .globl  put
put:    diag    %r2,%r3,0x100
        br      %r14

        .bss
        .balign 8
        .space  1024
top:
