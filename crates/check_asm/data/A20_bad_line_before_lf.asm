

foo
