# alone on its line
foo
