# An offer goes to the innermost finish around it.
main {
  let s = finish sum {
    offer 2;
    async {
      offer 3;
      finish {
        async { offer 9; }
      }
    }
  }
  print s;
}
