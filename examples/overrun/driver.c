/* A ring of bytes that a device fills past its end. It shows what becomes of a driver that fails: nothing of it is left in the kernel. */
struct ring {
  unsigned len;
  unsigned char *count(len) buf;
  unsigned head;
};

struct ring input;

/* A timer that sets itself. */
void tick(int times) {
  int e;
  e = set_timer(1, 10, tick, times + 1);
  if (e < 0) printd(e);
}

/* A byte of the device goes to the end of the ring. That there is room for it is not tested. */
void receive(int line) {
  int byte;
  if (line != 4) return;
  byte = port_in(768);
  input.buf[input.head] = byte;
  input.head = input.head + 1;
}

int init(void) {
  unsigned char *p;
  int e;
  p = kalloc(unsigned char, 4);
  if (!p) return -12;
  input.len = 4;
  input.buf = p;
  e = request_ports(768, 8);
  if (e < 0) return e;
  e = request_line(4, receive);
  if (e < 0) return e;
  e = set_timer(1, 10, tick, 0);
  printd(e);
  return 0;
}
