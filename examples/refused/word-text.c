/* A text ends on its own line. */
void init_text(void) {
  prints("first line
second line");
}
