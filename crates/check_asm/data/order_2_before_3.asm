# questions 2 and 3 of one line
foo 
