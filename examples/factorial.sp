# A function calls itself.
fn factorial(n) {
  if n < 2 { return 1; }
  let below = factorial(n - 1);
  return n * below;
}
main {
  let f = factorial(10);
  print "10! = ", f;
}
