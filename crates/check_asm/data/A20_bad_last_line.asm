

foo