/* Reads what a packet before this one left in the buffer: `length` bytes are valid, though the buffer is longer. */
struct packet {
  int length;
  unsigned char *count(length) bytes;
};

static struct packet packet;

/* The byte at a place that the packet itself tells. */
static int byte_at(struct packet *p, int place) {
  return p->bytes[place];
}

int init(void) {
  unsigned char *buffer;
  int byte;
  buffer = kalloc(unsigned char, 64);
  if (buffer == 0) return -12;
  buffer[40] = 123;
  packet.length = 4;
  packet.bytes = buffer;
  buffer[0] = 40;
  byte = byte_at(&packet, buffer[0]);
  printd(byte);
  return 0;
}
