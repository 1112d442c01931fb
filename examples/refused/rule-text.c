/* A text is read byte by byte up to its end: a step is 1, and an index 0 or 1. */
int third(char *nullterm text) {
  return text[2];
}
