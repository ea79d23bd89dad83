main { print "n=", 1 + 2; }
