# Bytes of one word: byte 1 of word 0 becomes 0xab; word 1 becomes this byte with its sign, word 2 without.
#   ./plural asm < examples/kernels/bytes.s
bytes:  li x5, 0xab
        sb x5, 1(x0)        # loads word 0, changes its byte 1, and stores the whole word
        lb x6, 1(x0)
        sw x6, 4(x0)        # 0xffffffab
        lbu x6, 1(x0)
        sw x6, 8(x0)        # 0x000000ab
        li x10, 0           # ends with code 0
        ecall
