/* A sensor that shares an interrupt line with another driver. It averages what the device tells, and fails where that tells of no samples. */
static int average;
static int started;

void interrupt(int line) {
  int sum;
  int samples;
  sum = port_in(600);
  samples = port_in(601);
  average = sum / samples;
  set_param(line, average);
}

int read_average(void) {
  return average;
}

int init(void) {
  int error;
  started = started + 1;
  error = request_ports(600, 2);
  if (error < 0) return error;
  error = request_line(9, interrupt);
  if (error < 0) return error;
  return started;
}
