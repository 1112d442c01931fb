/* A serial port with a ring of bytes for each direction. The interrupt fills the one and empties the other; tasks take from the first
   and put into the second.

   Ports, from `base` on: 0 data, 1 which interrupts are wanted (1 received, 2 sent), 3 format, 5 state (1 bytes wait, 2 bytes were
   lost, 32 a byte can be sent), 6 level: how many bytes wait.

   The driver trusts the level that the device tells. A device that tells more than the 16 bytes that it can hold would have it write
   behind `burst`, into `overruns`: here the first byte too many ends the driver, and the kernel stays whole. */

static int base = 1016;
static int own_line = 4;

struct ring {
  int size;
  unsigned char *count(size) bytes;
  int first;
  int used;
};

struct port {
  struct ring received;
  struct ring unsent;
  int depth;
  unsigned char *count(depth) burst;
  int overruns;
  int dropped;
  int sending;
};

static struct port port;

/* Rings */

/* Makes an empty ring of so many bytes: 0, or -12 where there is no memory for it. */
static int make_ring(struct ring *ring, int size) {
  unsigned char *bytes;
  bytes = kalloc(unsigned char, size);
  if (bytes == 0) return -12;
  ring->bytes = 0;
  ring->size = size;
  ring->bytes = bytes;
  ring->first = 0;
  ring->used = 0;
  return 0;
}

/* Gives the bytes of a ring back. */
static void drop_ring(struct ring *ring) {
  kfree(ring->bytes);
  ring->bytes = 0;
  ring->size = 0;
  ring->used = 0;
}

/* Puts a byte at the end: 1 where there was room. */
static int put(struct ring *ring, int byte) {
  if (ring->used == ring->size) return 0;
  ring->bytes[(ring->first + ring->used) % ring->size] = byte;
  ring->used = ring->used + 1;
  return 1;
}

/* Takes the first byte, or -1 where there is none. */
static int take(struct ring *ring) {
  int byte;
  if (ring->used == 0) return -1;
  byte = ring->bytes[ring->first];
  ring->first = (ring->first + 1) % ring->size;
  ring->used = ring->used - 1;
  return byte;
}

/* The interrupt */

/* Takes all bytes that wait in the device into the burst, and then hands them on to the ring: the device loses what it is not asked
   for soon. */
static void receive(void) {
  int level;
  int byte;
  int kept;
  int i;
  level = port_in(base + 6);
  i = 0;
  while (i < level) {
    byte = port_in(base);
    port.burst[i] = byte;
    i = i + 1;
  }
  i = 0;
  while (i < level) {
    kept = put(&port.received, port.burst[i]);
    if (!kept) port.dropped = port.dropped + 1;
    i = i + 1;
  }
}

/* Sends the next byte, or asks for no more interrupts of this kind where there is none. */
static void send_next(void) {
  int byte;
  byte = take(&port.unsent);
  if (byte >= 0) {
    port_out(base, byte);
  } else {
    port.sending = 0;
    port_out(base + 1, 1);
  }
}

/* The handler of the line. */
void interrupt(int line) {
  int state;
  if (line != own_line) return;
  state = port_in(base + 5);
  if (state & 2) port.overruns = port.overruns + 1;
  if (state & 1) receive();
  if (state & 32) send_next();
}

/* The handler of the timer: says every 1,000 ticks how many bytes were lost. */
void report(int timer) {
  printd(port.overruns + port.dropped);
  set_timer(timer, 1000, report, timer);
}

/* What tasks call */

/* Puts a byte into the transmit ring: 1, or 0 where there is no room. The interrupt waits meanwhile. */
int write_byte(int byte) {
  int done;
  mask();
  done = put(&port.unsent, byte);
  if (done && !port.sending) {
    port.sending = 1;
    port_out(base + 1, 3);
  }
  unmask();
  return done;
}

/* Takes the byte that was received first, or -1. */
int read_byte(void) {
  int byte;
  mask();
  byte = take(&port.received);
  unmask();
  return byte;
}

/* Puts the bytes of a text into the transmit ring, as many as there is room for, and says how many. */
static int write_text(char *nullterm text) {
  int done;
  int count_of;
  count_of = 0;
  done = 1;
  while (done && *text != 0) {
    done = write_byte(*text);
    count_of = count_of + done;
    text = text + 1;
  }
  return count_of;
}

/* Greets whoever listens. */
int greet(void) {
  int sent;
  sent = write_text("ready\n");
  return sent;
}

/* Start and stop */

/* Memory for the port: 0, or -12. */
static int make_port(void) {
  unsigned char *burst;
  int error;
  error = make_ring(&port.received, 64);
  if (error < 0) return error;
  error = make_ring(&port.unsent, 32);
  if (error < 0) {
    drop_ring(&port.received);
    return error;
  }
  burst = kalloc(unsigned char, 16);
  if (burst == 0) {
    drop_ring(&port.received);
    drop_ring(&port.unsent);
    return -12;
  }
  port.depth = 16;
  port.burst = burst;
  return 0;
}

int init(void) {
  int error;
  error = request_ports(base, 8);
  if (error < 0) return error;
  error = make_port();
  if (error < 0) {
    release_ports(base, 8);
    return error;
  }
  error = request_line(own_line, interrupt);
  if (error < 0) {
    release_ports(base, 8);
    return error;
  }
  add_device(4);
  set_param(4, 9600);
  set_timer(1, 1000, report, 1);
  port_out(base + 3, 3);
  port_out(base + 1, 1);
  return 0;
}

/* Stops the port, and gives back what it has. */
int stop(void) {
  port_out(base + 1, 0);
  del_timer(1);
  free_line(own_line);
  clear_param(4);
  del_device(4);
  release_ports(base, 8);
  drop_ring(&port.received);
  drop_ring(&port.unsent);
  return 0;
}
