/* A driver written for SafeDrive, compiled by another C compiler: the annotations vanish, and the kernel's calls have prototypes.

     gcc -include include/safedrive.h -funsigned-char -c driver.c

   bin/compile-with-gcc does that for each file that it is given. A driver that includes this header itself is made a text for SafeDrive by
   a preprocessor that is told so, which leaves the annotations and adds nothing:

     gcc -E -DSAFEDRIVE_TEXT driver.c > driver.i
*/
#ifndef SAFEDRIVE_H
#define SAFEDRIVE_H
#ifndef SAFEDRIVE_TEXT

/* Annotations. */
#define safe
#define sentinel
#define nullterm
#define count(sum)
#define bound(low, high)
#define when(test)

/* Memory: `kalloc(T, n)` is a pointer to n elements of type T, all 0, or null; `kfree(p)` gives a block back; `zero(l)` makes a union 0. */
void *safedrive_kalloc(unsigned size, int number);
void safedrive_kfree(void *block);
#define kalloc(type, number) ((type *) safedrive_kalloc(sizeof(type), number))
#define kfree(block) safedrive_kfree(block)
#define zero(place) ((void) __builtin_memset(&(place), 0, sizeof(place)))

/* Printing. */
void printd(int value);
void prints(char *text);

/* Interrupt lines: a handler is called with the line. */
int request_line(int line, void (*handler)(int line));
int free_line(int line);

/* Ports. */
int request_ports(int base, int number);
int release_ports(int base, int number);
int port_in(int port);
void port_out(int port, int value);

/* Devices and parameters. */
int add_device(int device);
int del_device(int device);
int set_param(int parameter, int value);
int clear_param(int parameter);
int get_param(int parameter);

/* Timers: a handler is called with the argument, once, this far from now. */
int set_timer(int timer, int distance, void (*handler)(int argument), int argument);
int del_timer(int timer);
int now(void);

/* Locks and the interrupt mask: for tasks, not for handlers. */
void lock(int number);
void unlock(int number);
void mask(void);
void unmask(void);

/* Power domains, and work for later. */
int hold(int domain);
int drop_hold(int domain);
int queue_work(void (*handler)(int argument), int argument);

#endif
#endif
