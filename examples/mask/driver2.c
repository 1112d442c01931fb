/* Another driver with a handler of line 5. */
void interrupt(int line) {
  printd(line);
}

int init(void) {
  int error;
  error = request_line(5, interrupt);
  return error;
}
