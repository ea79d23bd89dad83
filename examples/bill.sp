# The bill for three drinks.
main {
  let tea = 3;
  let cake = 5;
  let each = tea + cake;
  print "one of each: ", each;
  print "three of each: ", each + each + each;
}
