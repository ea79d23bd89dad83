# The sum of a column of a CSV file, by an async for each entry, and the greatest of its entries.
column price: int from "prices.csv" field "price";
column name: text from "prices.csv" field "name";
main {
  let total = finish sum {
    for i in 0..len(price) {
      async { offer price[i]; }
    }
  }
  let dearest = finish greatest {
    for i in 0..len(price) {
      if same(name, i, "sugar, brown") == 0 { offer price[i]; }
    }
  }
  print "rows ", len(price), ", sum ", total, ", greatest ", dearest;
}
