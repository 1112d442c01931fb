/* 2147483648 is no `int`: it wants `u`, as 2147483648u. */
int init(void) {
  return 2147483648;
}
