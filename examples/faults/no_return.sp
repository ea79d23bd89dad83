fn sign(n) {
  if n < 0 { return -1; }
  if n > 0 { return 1; }
}
main { }
