lines l from "no_such_file.txt";
main { }
