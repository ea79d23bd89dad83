main {
  for i in 0..4 {
    print 6 / (2 - i);
  }
}
