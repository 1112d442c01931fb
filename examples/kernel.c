/* A kernel of a few lines that refuses nothing, so that a driver runs as a program of its own: bin/compare-sanitizers links it to each driver of
   examples/stopped, to see what other tools find there. It calls `init`, and then the timers that were set. */
#include <stdio.h>
#include <stdlib.h>

struct timer {
  int live;
  void (*handler)(int);
  int argument;
};

static struct timer timers[256];

int init(void);

void *safedrive_kalloc(unsigned size, int number) { return number < 1 ? NULL : calloc(number, size); }
void safedrive_kfree(void *block) { free(block); }

void printd(int value) { printf("print %d\n", value); }
void prints(char *text) { printf("text \"%.32s\"\n", text ? text : ""); }

int request_line(int line, void (*handler)(int)) { return line < 0 || handler == NULL; }
int free_line(int line) { return line < 0; }
int request_ports(int base, int number) { return base < 0 || number < 1; }
int release_ports(int base, int number) { return base < 0 || number < 1; }
int port_in(int port) { return port < 0; }
void port_out(int port, int value) { printf("out %d %d\n", port, value); }
int add_device(int device) { return device < 0; }
int del_device(int device) { return device < 0; }
int set_param(int parameter, int value) { return parameter < 0 && value < 0; }
int clear_param(int parameter) { return parameter < 0; }
int get_param(int parameter) { return parameter < 0; }
int now(void) { return 0; }
int hold(int domain) { return domain < 0; }
int drop_hold(int domain) { return domain < 0; }
int queue_work(void (*handler)(int), int argument) { return handler == NULL && argument; }
void lock(int number) { (void)number; }
void unlock(int number) { (void)number; }
void mask(void) {}
void unmask(void) {}

int set_timer(int timer, int distance, void (*handler)(int), int argument) {
  timers[timer & 255] = (struct timer){1, handler, argument};
  return distance < 0;
}

int del_timer(int timer) {
  timers[timer & 255].live = 0;
  return 0;
}

int main(void) {
  int result = init();
  int number;
  printf("done %d\n", result);
  for (number = 0; number < 256; number++) {
    if (timers[number].live) {
      timers[number].live = 0;
      timers[number].handler(timers[number].argument);
    }
  }
  return 0;
}
