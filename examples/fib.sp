# A function gathers in a finish of its own what an async and it offer.
fn fib(n) {
  if n < 2 { return n; }
  let r = finish sum {
    async { let a = fib(n - 1); offer a; }
    let b = fib(n - 2);
    offer b;
  }
  return r;
}
main {
  let x = fib(10);
  print x;
}
