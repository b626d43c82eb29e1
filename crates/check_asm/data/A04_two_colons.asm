# one colon
L::
