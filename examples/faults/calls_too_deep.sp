fn down(n) {
  if n == 0 { return 0; }
  let below = down(n - 1);
  return below + 1;
}
main {
  let a = down(255);
  print a;
  let b = down(256);
  print b;
}
