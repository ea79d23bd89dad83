main {
  finish {
    print "tea";
  }
}
