# 0 "disk.c"
# 0 "<built-in>"
# 0 "<command-line>"
# 1 "/usr/include/stdc-predef.h" 1 3 4
# 0 "<command-line>" 2
# 1 "disk.c"
# 14 "disk.c"
# 1 "../../include/safedrive.h" 1
# 15 "disk.c" 2
# 37 "disk.c"
struct buffer {
  int size;
  int *count(size) words;
  int valid;
};

struct request {
  int kind;
  int block;
  union {
    struct buffer *into when (kind == 1);
    int value when (kind == 2);
    char *nullterm text when (kind == 3);
  } what;
};

struct queue {
  struct request slots[4];
  int first;
  int used;
};

static struct queue queue;
static struct buffer *last;
static int served;
static int failed;
static int interrupts;




static struct buffer *new_buffer(void) {
  struct buffer *buffer;
  int *words;
  buffer = kalloc(struct buffer, 1);
  words = kalloc(int, 8);
  if (buffer == 0 || words == 0) {
    kfree(buffer);
    kfree(words);
    return 0;
  }
  buffer->size = 8;
  buffer->words = words;
  return buffer;
}


static int sum_of(int *count(size) words, int size) {
  int sum;
  int i;
  sum = 0;
  i = 0;
  while (i < size) {
    sum = sum + words[i];
    i = i + 1;
  }
  return sum;
}




static int wait_ready(void) {
  int state;
  int tries;
  tries = 0;
  while (tries < 8) {
    state = port_in((496 + 7));
    if (state & 1) return -5;
    if (state & 64) return 0;
    tries = tries + 1;
  }
  return -5;
}


static int read_block(int block, struct buffer *into) {
  int length;
  int word;
  int error;
  int i;
  port_out((496 + 2), block);
  port_out((496 + 7), 32);
  error = wait_ready();
  if (error < 0) return error;
  length = port_in((496 + 1));
  i = 0;
  while (i < length) {
    word = port_in((496 + 0));
    into->words[i] = word;
    i = i + 1;
  }
  into->valid = length;
  return length;
}


static int fill_block(int block, int value) {
  int error;
  int i;
  port_out((496 + 2), block);
  port_out((496 + 7), 48);
  i = 0;
  while (i < 8) {
    port_out((496 + 0), value);
    i = i + 1;
  }
  error = wait_ready();
  return error;
}




static int serve(struct request *request) {
  int result;
  result = 0;
  if (request->kind == 1) {
    result = read_block(request->block, request->what.into);
    last = request->what.into;
  }
  if (request->kind == 2) result = fill_block(request->block, request->what.value);
  if (request->kind == 3) prints(request->what.text);
  return result;
}


void serve_queue(int left) {
  struct request *request;
  int result;
  if (queue.used == 0) return;
  request = &queue.slots[queue.first];
  result = serve(request);
  if (result < 0) failed = failed + 1;
  else served = served + 1;
  queue.first = (queue.first + 1) % 4;
  queue.used = queue.used - 1;
  if (queue.used > 0) queue_work(serve_queue, left - 1);
}


static struct request *free_place(void) {
  struct request *request;
  if (queue.used == 4) return 0;
  request = &queue.slots[(queue.first + queue.used) % 4];
  zero(request->what);
  request->kind = 0;
  return request;
}


static int submit(void) {
  int error;
  error = 0;
  if (queue.used == 0) error = queue_work(serve_queue, 0);
  if (error < 0) return error;
  queue.used = queue.used + 1;
  return 0;
}




int read(int block) {
  struct request *request;
  struct buffer *buffer;
  int error;
  if (block < 0 || block >= 1024) return -22;
  buffer = new_buffer();
  if (buffer == 0) return -12;
  lock(1);
  error = -28;
  request = free_place();
  if (request != 0) {
    request->kind = 1;
    request->block = block;
    request->what.into = buffer;
    error = submit();
  }
  unlock(1);
  return error;
}


int fill(int block, int value) {
  struct request *request;
  int error;
  if (block < 0 || block >= 1024) return -22;
  lock(1);
  error = -28;
  request = free_place();
  if (request != 0) {
    request->kind = 2;
    request->block = block;
    request->what.value = value;
    error = submit();
  }
  unlock(1);
  return error;
}


int note(int word) {
  struct request *request;
  char *nullterm text;
  int error;
  text = "all is served";
  if (word == 1) text = "half is served";
  lock(1);
  error = -28;
  request = free_place();
  if (request != 0) {
    request->kind = 3;
    request->what.text = text;
    error = submit();
  }
  unlock(1);
  return error;
}


int check_sum(void) {
  int sum;
  if (last == 0) return -5;
  sum = sum_of(last->words, last->size);
  return sum;
}


int failures(void) {
  return failed;
}




void interrupt(int line) {
  if (line == 14) interrupts = interrupts + 1;
}

int init(void) {
  int error;
  error = request_ports(496, 8);
  if (error < 0) return error;
  error = request_line(14, interrupt);
  if (error < 0) {
    release_ports(496, 8);
    return error;
  }
  add_device(14);
  hold(3);
  return 0;
}
