# What a turn assigns to the name of its loop holds in that turn alone.
main {
  let below = 4;
  for i in 1..below {
    below = 9;
    i = i * 10;
    print i;
  }
  for i in below..2 { print "never"; }
}
