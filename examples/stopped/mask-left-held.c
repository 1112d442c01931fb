/* Ends and still holds all interrupts off. */
int init(void) {
  int error;
  mask();
  error = request_ports(768, 8);
  if (error < 0) return error;
  error = request_ports(770, 2);
  if (error < 0) return error;
  unmask();
  return 0;
}
