int init(void) {
  int error;
  error = request_ports(768); /* two arguments: the first port, and how many */
  return error;
}
