/* A disk that is driven by ports, with a queue of requests that the kernel's work queue serves. `driver.c` is this text as a preprocessor
   leaves it:

     gcc -E -DSAFEDRIVE_TEXT -I ../../include disk.c > driver.c

   Tasks put requests into the queue; a lock keeps two of them apart. An item of work takes the first request to the device, word by word,
   and ends it. What a request wants is told by its kind, and a union holds what each kind needs: a buffer to read into, a value to
   fill a block with, or a text for the log.

   The driver trusts the length that the device tells of a block. A device that tells more words than the buffer has would have it
   write into what lies behind: here the first word too many ends the driver, and the request that waits, the lock that a task holds
   and the power that it keeps on are taken back. */

#include "safedrive.h"

#define BASE 496
#define DATA (BASE + 0)    /* one word of a block */
#define LENGTH (BASE + 1)  /* how many words the block has */
#define BLOCK (BASE + 2)   /* which block */
#define STATE (BASE + 7)   /* 1 failed, 64 ready */
#define COMMAND (BASE + 7) /* 32 read, 48 write */
#define LINE 14
#define QUEUE_LOCK 1
#define WORDS 8
#define BLOCKS 1024
#define QUEUED 4

#define EIO 5
#define ENOMEM 12
#define EINVAL 22
#define ENOSPC 28

#define READ 1
#define FILL 2
#define NOTE 3

struct buffer {
  int size;
  int *count(size) words;
  int valid;
};

struct request {
  int kind;
  int block;
  union {
    struct buffer *into when (kind == 1);
    int value when (kind == 2);
    char *nullterm text when (kind == 3);
  } what;
};

struct queue {
  struct request slots[QUEUED];
  int first;
  int used;
};

static struct queue queue;
static struct buffer *last;
static int served;
static int failed;
static int interrupts;

/* Buffers */

/* A buffer of WORDS words, or null where there is no memory. */
static struct buffer *new_buffer(void) {
  struct buffer *buffer;
  int *words;
  buffer = kalloc(struct buffer, 1);
  words = kalloc(int, WORDS);
  if (buffer == 0 || words == 0) {
    kfree(buffer);
    kfree(words);
    return 0;
  }
  buffer->size = WORDS;
  buffer->words = words;
  return buffer;
}

/* The sum of the words of a buffer, as a check. */
static int sum_of(int *count(size) words, int size) {
  int sum;
  int i;
  sum = 0;
  i = 0;
  while (i < size) {
    sum = sum + words[i];
    i = i + 1;
  }
  return sum;
}

/* The device */

/* Waits until the device is ready, 8 tries at most: 0, or -EIO. */
static int wait_ready(void) {
  int state;
  int tries;
  tries = 0;
  while (tries < 8) {
    state = port_in(STATE);
    if (state & 1) return -EIO;
    if (state & 64) return 0;
    tries = tries + 1;
  }
  return -EIO;
}

/* Reads a block into a buffer: how many words the device had, or -EIO. */
static int read_block(int block, struct buffer *into) {
  int length;
  int word;
  int error;
  int i;
  port_out(BLOCK, block);
  port_out(COMMAND, 32);
  error = wait_ready();
  if (error < 0) return error;
  length = port_in(LENGTH);
  i = 0;
  while (i < length) {
    word = port_in(DATA);
    into->words[i] = word;
    i = i + 1;
  }
  into->valid = length;
  return length;
}

/* Writes a value to each word of a block: 0, or -EIO. */
static int fill_block(int block, int value) {
  int error;
  int i;
  port_out(BLOCK, block);
  port_out(COMMAND, 48);
  i = 0;
  while (i < WORDS) {
    port_out(DATA, value);
    i = i + 1;
  }
  error = wait_ready();
  return error;
}

/* Requests */

/* Serves one request: 0 or more, or an error. */
static int serve(struct request *request) {
  int result;
  result = 0;
  if (request->kind == READ) {
    result = read_block(request->block, request->what.into);
    last = request->what.into;
  }
  if (request->kind == FILL) result = fill_block(request->block, request->what.value);
  if (request->kind == NOTE) prints(request->what.text);
  return result;
}

/* The work of the queue: serves the first request, and asks for more work while there are others. */
void serve_queue(int left) {
  struct request *request;
  int result;
  if (queue.used == 0) return;
  request = &queue.slots[queue.first];
  result = serve(request);
  if (result < 0) failed = failed + 1;
  else served = served + 1;
  queue.first = (queue.first + 1) % QUEUED;
  queue.used = queue.used - 1;
  if (queue.used > 0) queue_work(serve_queue, left - 1);
}

/* A free place at the end of the queue, with nothing in its union, or null where the queue is full. */
static struct request *free_place(void) {
  struct request *request;
  if (queue.used == QUEUED) return 0;
  request = &queue.slots[(queue.first + queue.used) % QUEUED];
  zero(request->what);
  request->kind = 0;
  return request;
}

/* The request at this place is whole: it is one more, and the first one calls for work. */
static int submit(void) {
  int error;
  error = 0;
  if (queue.used == 0) error = queue_work(serve_queue, 0);
  if (error < 0) return error;
  queue.used = queue.used + 1;
  return 0;
}

/* What tasks call: 0, or an error. */

/* Asks for a block to be read into a new buffer. */
int read(int block) {
  struct request *request;
  struct buffer *buffer;
  int error;
  if (block < 0 || block >= BLOCKS) return -EINVAL;
  buffer = new_buffer();
  if (buffer == 0) return -ENOMEM;
  lock(QUEUE_LOCK);
  error = -ENOSPC;
  request = free_place();
  if (request != 0) {
    request->kind = READ;
    request->block = block;
    request->what.into = buffer;
    error = submit();
  }
  unlock(QUEUE_LOCK);
  return error;
}

/* Asks for a block to be filled with a value. */
int fill(int block, int value) {
  struct request *request;
  int error;
  if (block < 0 || block >= BLOCKS) return -EINVAL;
  lock(QUEUE_LOCK);
  error = -ENOSPC;
  request = free_place();
  if (request != 0) {
    request->kind = FILL;
    request->block = block;
    request->what.value = value;
    error = submit();
  }
  unlock(QUEUE_LOCK);
  return error;
}

/* Puts a word into the log when the requests before it are served. */
int note(int word) {
  struct request *request;
  char *nullterm text;
  int error;
  text = "all is served";
  if (word == 1) text = "half is served";
  lock(QUEUE_LOCK);
  error = -ENOSPC;
  request = free_place();
  if (request != 0) {
    request->kind = NOTE;
    request->what.text = text;
    error = submit();
  }
  unlock(QUEUE_LOCK);
  return error;
}

/* The sum of the block that was read last, or -EIO where none was. */
int check_sum(void) {
  int sum;
  if (last == 0) return -EIO;
  sum = sum_of(last->words, last->size);
  return sum;
}

/* How many requests failed. */
int failures(void) {
  return failed;
}

/* Start */

/* The handler of the line. */
void interrupt(int line) {
  if (line == LINE) interrupts = interrupts + 1;
}

int init(void) {
  int error;
  error = request_ports(BASE, 8);
  if (error < 0) return error;
  error = request_line(LINE, interrupt);
  if (error < 0) {
    release_ports(BASE, 8);
    return error;
  }
  add_device(14);
  hold(3);
  return 0;
}
