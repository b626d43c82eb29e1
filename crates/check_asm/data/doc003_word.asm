.word 256 1          # set MEM[256] = 1
