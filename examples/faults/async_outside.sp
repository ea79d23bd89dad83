main {
  async { let tea = 3; }
}
