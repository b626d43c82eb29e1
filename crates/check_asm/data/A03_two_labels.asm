# no two labels on a line
L: M:
