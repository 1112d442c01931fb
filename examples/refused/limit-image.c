struct page {
  char bytes[65536];
};

struct page first[4];
struct page second[4]; /* globals and texts end at byte 524,288 */
