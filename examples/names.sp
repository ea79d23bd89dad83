# Where names are visible, and that they are of different kinds.
fn tea(milk) {
  let tea = 3;
  return tea + milk;
}
main {
  if 1 { let cake = 5; print cake; }
  let cake = 6;
  let tea = tea(1);
  print cake, " ", tea;
}
