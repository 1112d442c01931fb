int init(void) {
  return 0; /* a comment that does not end
}
