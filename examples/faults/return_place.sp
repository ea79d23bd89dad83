fn first(n) {
  finish {
    return n;
  }
  return 0;
}
main { }
