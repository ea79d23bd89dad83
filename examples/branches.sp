# The sums of the odd and of the even numbers below 10.
main {
  let odd = 0;
  let even = 0;
  for i in 0..10 {
    if i % 2 == 1 { odd = odd + i; } else { even = even + i; }
  }
  print "odd ", odd, ", even ", even;
}
