/* Lets a lock go that it does not hold: another's section would begin in the middle of one. */
int init(void) {
  lock(2);
  unlock(2);
  unlock(2);
  return 0;
}
