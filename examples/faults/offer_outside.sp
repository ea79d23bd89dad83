fn half(n) {
  offer n / 2;
  return n / 2;
}
main {
  let s = finish sum { let h = half(6); offer h; }
  print s;
}
