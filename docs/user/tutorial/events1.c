/* Keeps what a device tells: at each interrupt a place and a value. As it was written in C. */
struct events {
  int size;
  int *values;
  int told;
};

static struct events events;

void interrupt(int line) {
  int place = port_in(800);
  events.values[place] = port_in(801);
  events.told = events.told + line / 7;
}

int sum(int *values, int n) {
  int i;
  int total;
  i = 0;
  total = 0;
  while (i < n) {
    total = total + values[i];
    i = i + 1;
  }
  return total;
}

int report(void) {
  return sum(events.values, events.size);
}

int init(void) {
  events.values = kalloc(int, 8);
  events.size = 8;
  request_ports(800, 2);
  return request_line(7, interrupt);
}
