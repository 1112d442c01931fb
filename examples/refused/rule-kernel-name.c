/* The kernel's calls are declared by nobody, and no function has their names. */
int now(void) {
  return 0;
}
