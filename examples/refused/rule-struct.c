struct point {
  int x;
  int y;
};

struct point here;
struct point there;

int init(void) {
  here = there; /* a struct is assigned field by field */
  return 0;
}
