/* Keeps what a device tells: at each interrupt a place and a value. Its pointers are annotated. */
struct events {
  int size;
  int *count(size) values;
  int told;
};

static struct events events;

void interrupt(int line) {
  int place;
  int value;
  place = port_in(800);
  value = port_in(801);
  events.values[place] = value;
  events.told = events.told + line / 7;
}

int sum(int *count(n) values, int n) {
  int i;
  int total;
  i = 0;
  total = 0;
  while (i < n) {
    total = total + values[i];
    i = i + 1;
  }
  return total;
}

int report(void) {
  int total;
  total = sum(events.values, events.size);
  return total;
}

int init(void) {
  int *values;
  int error;
  values = kalloc(int, 8);
  if (values == 0) return -12;
  events.size = 8;
  events.values = values;
  error = request_ports(800, 2);
  if (error < 0) return error;
  error = request_line(7, interrupt);
  return error;
}
