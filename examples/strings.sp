main {
  print "a \"quoted\" word and a \\";
  print "left ", 1, ", right ", 2;
  print "";
  print "no # comment"; # a comment
}
