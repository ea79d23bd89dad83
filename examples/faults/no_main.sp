fn half(n) {
  return n / 2;
}
