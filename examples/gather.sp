# Three finishes, and what each gathers.
main {
  let tea = 3;
  let all = finish sum {
    offer tea;
    async { offer tea + tea; }
    async { async { offer 1; } }
  }
  print "sum ", all;
  let fewest = finish least {
    async { offer tea + tea; }
    offer tea;
  }
  print "least ", fewest;
  let most = finish greatest { }
  print "greatest of none ", most;
}
