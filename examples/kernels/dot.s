# A dot product: word 8 becomes the sum of the products of words 0 to 3 with words 4 to 7.
#   ./plural asm < examples/kernels/dot.s
dot:    li x5, 0            # the byte address of the first row
        li x6, 16           # the byte address of the second row
        li x7, 0            # the sum
        li x8, 4            # how many products are left
next:   lw x9, 0(x5)
        lw x11, 0(x6)
        mul x9, x9, x11
        add x7, x7, x9
        addi x5, x5, 4
        addi x6, x6, 4
        addi x8, x8, -1
        bnez x8, next
        sw x7, 0(x6)        # x6 is now 32, the byte address of word 8
        li x10, 0           # ends with code 0
        ecall
