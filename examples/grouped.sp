# Sums group to the left, and parentheses group otherwise.
main {
  let tea = 3;
  print 1 + 2 + tea, " ", 1 + (2 + tea), " ", ((tea));
}
