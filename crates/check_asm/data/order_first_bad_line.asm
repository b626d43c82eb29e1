# the first bad line decides, whatever its number
foo
# 
