/* Takes a lock whose number is none: there are 64. */
int init(void) {
  int number;
  number = 63;
  lock(number);
  unlock(number);
  number = number + 1;
  lock(number);
  unlock(number);
  return 0;
}
