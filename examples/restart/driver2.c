/* Another driver on the same line: it counts its interrupts, whatever becomes of the first. */
static int interrupts;

void interrupt(int line) {
  interrupts = interrupts + 1;
  printd(line + interrupts);
}

int init(void) {
  int error;
  error = request_line(9, interrupt);
  return error;
}
