# A block sees the values of its place, and what it binds stays in it.
main {
  let price = 7;
  let total = finish sum {
    async { let two = price + price; offer two; }
    async { let two = 2; offer two; }
    let rest = price + 1;
    offer rest;
  }
  print "total ", total;
  let rest = 1;
  print "rest ", rest;
}
