# Results wrap at 64 bits.
main {
  let most = 9223372036854775807;
  print most + 1;
  print most + most + 2;
  print most * most;
  let lowest = -most - 1;
  print -lowest, " ", lowest / -1, " ", lowest % -1;
}
