void read_status(int *to) {
  *to = 1;
}

int init(void) {
  int status;
  read_status(&status); /* a local has no address */
  return status;
}
