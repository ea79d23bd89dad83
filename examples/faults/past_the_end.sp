column price: int from "prices.csv" field "price";
main {
  print price[2];
  print price[3];
}
