/* Keeps what a device tells: at each interrupt a place and a value. Each call is a statement of its own. */
struct events {
  int size;
  int *values;
  int told;
};

static struct events events;

void interrupt(int line) {
  int place;
  int value;
  place = port_in(800);
  value = port_in(801);
  events.values[place] = value;
  events.told = events.told + line / 7;
}

int sum(int *values, int n) {
  int i;
  int total;
  i = 0;
  total = 0;
  while (i < n) {
    total = total + values[i];
    i = i + 1;
  }
  return total;
}

int report(void) {
  int total;
  total = sum(events.values, events.size);
  return total;
}

int init(void) {
  int *values;
  int error;
  values = kalloc(int, 8);
  events.values = values;
  events.size = 8;
  error = request_ports(800, 2);
  if (error < 0) return error;
  error = request_line(7, interrupt);
  return error;
}
