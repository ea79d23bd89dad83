main {
  let count = 0;
  finish {
    async { count = count + 1; }
  }
  print count;
}
