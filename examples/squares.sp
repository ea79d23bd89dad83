# A task halves its range, and offers the square of each number in it.
task squares(from_here, below) {
  if below - from_here < 2 {
    if from_here < below { offer from_here * from_here; }
  } else {
    let middle = (from_here + below) / 2;
    async { run squares(from_here, middle); }
    run squares(middle, below);
  }
}
main {
  let s = finish sum { run squares(0, 100); }
  print "sum ", s;
  let g = finish greatest { run squares(0, 100); }
  print "greatest ", g;
}
