main {
  print "one line,
         and the next";
}
