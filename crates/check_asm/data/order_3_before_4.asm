# questions 3 and 4 of one line
foo $t3
