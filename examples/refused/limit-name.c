/* A name has at most 63 bytes. */
int a_name_that_goes_on_and_on_and_on_and_on_until_it_has_64_bytes_x;
