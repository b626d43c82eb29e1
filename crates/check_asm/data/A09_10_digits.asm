# ten digits: right form, but out of range
.word 1 9999999999
