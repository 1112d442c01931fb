int init(void) {
  return - - - - - - - - - - - - - - - - - 1; /* 17 unary signs in a row; 16 are the limit */
}
