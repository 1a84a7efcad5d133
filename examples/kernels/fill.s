# A loop over a region: the eight words from word 0 on become 0, 1, 2 and so on up to 7.
#   ./plural asm < examples/kernels/fill.s
fill:   li x5, 0            # the number to store
        li x6, 0            # the byte address of the next word
        li x7, 32           # the byte address after the last word
next:   sw x5, 0(x6)
        addi x5, x5, 1
        addi x6, x6, 4
        blt x6, x7, next
        li x10, 0           # ends with code 0
        ecall
