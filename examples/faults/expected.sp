main {
  print 1
}
