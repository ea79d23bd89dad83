column price: int from "prices.csv" field "Price";
main { }
