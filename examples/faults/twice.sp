main {
  let tea = 3;
  if tea > 2 {
    let tea = 4;
  }
}
