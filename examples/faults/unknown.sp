main {
  let tea = 3;
  print tea + coffee;
}
