/* Another driver that takes the same lock. */
int init(void) {
  lock(3);
  printd(3);
  unlock(3);
  return 0;
}
