/* An array has at least one element. */
int values[0];
