# The right side of && and || isn't evaluated where the left side decides.
main {
  let none = 0;
  print none != 0 && 6 / none > 1;
  print none == 0 || 6 / none > 1;
}
