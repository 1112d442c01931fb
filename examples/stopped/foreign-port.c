/* Writes to a port behind those that it claimed. */
int init(void) {
  int error;
  error = request_ports(768, 8);
  if (error < 0) return error;
  port_out(768 + 7, 1);
  port_out(768 + 8, 1);
  return 0;
}
