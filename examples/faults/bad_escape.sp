main {
  print "tea",
        "\n";
}
