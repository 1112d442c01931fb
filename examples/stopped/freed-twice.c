/* Gives a block back twice. */
int init(void) {
  char *block;
  block = kalloc(char, 16);
  kfree(block);
  printd(1);
  kfree(block);
  printd(2);
  return 0;
}
