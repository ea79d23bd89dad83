lines l1 from "1.txt";
lines l2 from "2.txt";
lines l3 from "3.txt";
lines l4 from "4.txt";
lines l5 from "5.txt";
lines l6 from "6.txt";
lines l7 from "7.txt";
lines l8 from "8.txt";
lines l9 from "9.txt";
lines l10 from "10.txt";
lines l11 from "11.txt";
lines l12 from "12.txt";
lines l13 from "13.txt";
lines l14 from "14.txt";
lines l15 from "15.txt";
lines l16 from "16.txt";
lines l17 from "17.txt";
main { }
