/* Divides by a number that the device tells, which tells 0. */
int init(void) {
  int error;
  int rate;
  error = request_ports(64, 4);
  if (error < 0) return error;
  rate = port_in(64);
  printd(1193182 / rate);
  return 0;
}
