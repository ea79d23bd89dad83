column price: int from "not_int.csv" field "price";
main {
  print len(price);
}
