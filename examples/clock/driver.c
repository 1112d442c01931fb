/* A real-time clock with alarms. The time of day is read from the device by two ports: the number of a register is written to the
   first, its value comes from the second, in digits of four bits. Alarms stand in a list, the next one first; one timer of the kernel
   waits for the first of them.

   The driver trusts the month that the device tells. A device that tells month 25 would have it read behind `days`: here that ends
   the driver, its timer and its line are taken back, and whoever else set the kernel's parameter has it again. */

static int index_port = 112;
static int value_port = 113;
static int own_line = 8;

struct date {
  int second;
  int minute;
  int hour;
  int day;
  int month;
  int year;
};

struct alarm {
  int due;
  char *nullterm text;
  struct alarm *next;
};

static struct date today;
static unsigned char days[12];
static struct alarm *first;
static struct alarm *unused;
static int ticks_of_second = 100;

/* The device */

/* The value of a register, whose two digits have four bits each. */
static int read_register(int number) {
  int digits;
  port_out(index_port, number);
  digits = port_in(value_port);
  return (digits >> 4) * 10 + (digits & 15);
}

/* Reads the whole date. */
static void read_date(struct date *to) {
  int value;
  value = read_register(0);
  to->second = value;
  value = read_register(2);
  to->minute = value;
  value = read_register(4);
  to->hour = value;
  value = read_register(7);
  to->day = value;
  value = read_register(8);
  to->month = value;
  value = read_register(9);
  to->year = 2000 + value;
}

/* How many days each month has. */
static void fill_days(void) {
  int month;
  month = 0;
  while (month < 12) {
    days[month] = 31;
    if (month == 3 || month == 5 || month == 8 || month == 10) days[month] = 30;
    month = month + 1;
  }
  days[1] = 28;
}

/* The number of a day in its year, from 1. */
static int day_of_year(struct date *date) {
  int month;
  int number;
  month = 1;
  number = date->day;
  while (month < date->month) {
    number = number + days[month - 1];
    month = month + 1;
  }
  if (date->month > 2 && date->year % 4 == 0) number = number + 1;
  return number;
}

/* The handler of the line: the device says that a day is over. */
void new_day(int line) {
  int number;
  if (line != own_line) return;
  read_date(&today);
  number = day_of_year(&today);
  set_param(8, number);
}

/* Alarms */

/* Puts so many alarms into the list of unused ones: 0, or -12. */
static int make_alarms(int number) {
  struct alarm *all;
  struct alarm *at;
  int i;
  all = kalloc(struct alarm, number);
  if (all == 0) return -12;
  i = 0;
  while (i < number) {
    at = all + i;
    at->next = unused;
    unused = at;
    i = i + 1;
  }
  return 0;
}

/* Puts an alarm where the list stays in the order of what is due. */
static void insert(struct alarm *alarm) {
  struct alarm *at;
  if (first == 0 || alarm->due < first->due) {
    alarm->next = first;
    first = alarm;
    return;
  }
  at = first;
  while (at->next != 0 && at->next->due <= alarm->due) at = at->next;
  alarm->next = at->next;
  at->next = alarm;
}

/* The handler of the timer: rings all alarms that are due, and waits for the next. */
void ring(int timer) {
  struct alarm *alarm;
  int time;
  time = now();
  while (first != 0 && first->due <= time) {
    alarm = first;
    prints(alarm->text);
    first = alarm->next;
    alarm->next = unused;
    unused = alarm;
  }
  if (first != 0) set_timer(timer, first->due - time, ring, timer);
}

/* What an alarm says. */
static char *nullterm text_of(int kind) {
  if (kind == 1) return "get up";
  if (kind == 2) return "tea is ready";
  return "time is over";
}

/* An alarm in so many seconds: 0, -22 where that is no time to come, -28 where 8 alarms wait. */
int set_alarm(int seconds, int kind) {
  struct alarm *alarm;
  char *nullterm text;
  int time;
  if (seconds < 1 || seconds > 3600) return -22;
  lock(8);
  if (unused == 0) {
    unlock(8);
    return -28;
  }
  time = now();
  text = text_of(kind);
  alarm = unused;
  unused = alarm->next;
  alarm->due = time + seconds * ticks_of_second;
  alarm->text = text;
  insert(alarm);
  set_timer(1, first->due - time, ring, 1);
  unlock(8);
  return 0;
}

/* How many alarms wait. */
int alarms(void) {
  struct alarm *at;
  int number;
  number = 0;
  at = first;
  while (at) {
    number = number + 1;
    at = at->next;
  }
  return number;
}

/* The day of the year, as it was read last. */
int day(void) {
  int number;
  number = day_of_year(&today);
  return number;
}

int init(void) {
  int error;
  error = request_ports(index_port, 2);
  if (error < 0) return error;
  error = make_alarms(8);
  if (error == 0) error = request_line(own_line, new_day);
  if (error < 0) {
    release_ports(index_port, 2);
    return error;
  }
  fill_days();
  add_device(8);
  hold(1);
  new_day(own_line);
  return 0;
}
