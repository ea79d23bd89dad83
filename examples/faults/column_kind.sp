column price: int from "p.csv" field "price";
main {
  print size(price, 0);
}
