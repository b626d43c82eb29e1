.word 256 1          # set MEM[256] = 1

.word 0x100 0x1234ABCD # MEM[0x100] = MEM[256] = 0x1234ABCD
