int total;

/* A local has no initialiser; the item that is not read is the whole function. */
int init(void) {
  int i = 0;
  total = i;
  return 0;
}
