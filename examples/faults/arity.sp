fn area(width, height) {
  return width * height;
}
main {
  let a = area(3);
  print a;
}
