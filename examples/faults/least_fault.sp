fn quotient(a, b) {
  return a / b;
}
main {
  print "before";
  finish {
    async { offer 1 % 0; }
    async { let q = quotient(1, 0); offer q; }
  }
  print "never";
}
