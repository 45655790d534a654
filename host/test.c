/* Holds the two functions of wellember.h to document 01: every number that they can return, the sixteen bytes, and what they leave untouched.
 * Each list that is handed over ends where a page without access begins, so that one byte too many read or written ends the program.
 * Each call is made on a thread with a stack of WELLEMBER_STACK bytes, below which a page without access begins, and the most that the calls
 * of a function took of it is printed.
 *
 *   test FOLDER        (the folder of example plans) */
#define _DEFAULT_SOURCE
#include <pthread.h>
#include <stdio.h>
#include <stdlib.h>
#include <string.h>
#include <sys/mman.h>
#include <unistd.h>

#include "wellember.h"

static int wrong = 0;

static void expect(const char *what, uint64_t found, uint64_t right) {
  if (found != right) {
    printf("%s: %llu, not %llu\n", what, (unsigned long long)found, (unsigned long long)right);
    wrong++;
  }
}

static size_t page_size(void) {
  return (size_t)sysconf(_SC_PAGESIZE);
}

/* `size` bytes in whole pages, of which the page at `closed` is without access. */
static uint8_t *pages(size_t size, size_t closed) {
  uint8_t *start = mmap(NULL, size, PROT_READ | PROT_WRITE, MAP_PRIVATE | MAP_ANONYMOUS, -1, 0);
  if (start == MAP_FAILED || mprotect(start + closed, page_size(), PROT_NONE) != 0) {
    perror("pages");
    exit(2);
  }
  return start;
}

/* `length` bytes that end where a page without access begins. */
static uint8_t *guarded(size_t length) {
  size_t size = (length / page_size() + 1) * page_size();
  return pages(size + page_size(), size) + size - length;
}

static uint8_t *copied(const uint8_t *bytes, size_t length) {
  uint8_t *copy = guarded(length);
  if (length > 0) {
    memcpy(copy, bytes, length);
  }
  return copy;
}

/* The stack of the calls: its lowest byte stands above a page without access. */
static uint8_t *stack;

enum { PAINT = 0xa5 };

/* Paints the stack up to somewhat below this function's frame. The frame and what is above it count as taken. */
__attribute__((noinline, no_sanitize("address", "undefined"))) static void paint(void) {
  volatile uint8_t *end = (volatile uint8_t *)__builtin_frame_address(0) - 256;
  for (volatile uint8_t *at = stack; at < end; at++) {
    *at = PAINT;
  }
}

/* How many bytes from the lowest on are painted still. */
__attribute__((noinline, no_sanitize("address", "undefined"))) static size_t untouched(void) {
  const volatile uint8_t *at = stack;
  while (*at == PAINT) {
    at++;
  }
  return (size_t)(at - stack);
}

struct job {
  void (*make)(void *);
  void *call;
  size_t took;
};

static void *on_the_stack(void *given) {
  struct job *job = given;
  paint();
  job->make(job->call);
  job->took = (size_t)((uint8_t *)__builtin_frame_address(0) - stack) - untouched();
  return NULL;
}

/* Makes a call on a new thread with that stack, and raises `most` where it took more. */
static void make(void (*function)(void *), void *call, size_t *most) {
  struct job job = {function, call, 0};
  pthread_attr_t attributes;
  pthread_t thread;
  if (pthread_attr_init(&attributes) != 0 || pthread_attr_setstack(&attributes, stack, WELLEMBER_STACK) != 0 ||
      pthread_create(&thread, &attributes, on_the_stack, &job) != 0 || pthread_join(thread, NULL) != 0) {
    fprintf(stderr, "no thread with a stack of %d bytes\n", WELLEMBER_STACK);
    exit(2);
  }
  pthread_attr_destroy(&attributes);
  *most = job.took > *most ? job.took : *most;
}

struct check_call {
  const uint8_t *plan;
  size_t plan_len;
  uint32_t answer;
};

static void make_check(void *given) {
  struct check_call *call = given;
  call->answer = wellember_check(call->plan, call->plan_len);
}

static size_t check_took = 0;

static uint32_t made_check(const uint8_t *plan, size_t plan_len) {
  struct check_call call = {plan, plan_len, 0};
  make(make_check, &call, &check_took);
  return call.answer;
}

struct pair_call {
  const uint8_t *plan;
  size_t plan_len;
  uint32_t v;
  uint32_t w;
  uint8_t *out;
  size_t out_len;
  uint32_t answer;
};

static void make_pair(void *given) {
  struct pair_call *call = given;
  call->answer = wellember_pair(call->plan, call->plan_len, call->v, call->w, call->out, call->out_len);
}

static size_t pair_took = 0;

static uint32_t made_pair(const uint8_t *plan, size_t plan_len, uint32_t v, uint32_t w, uint8_t *out, size_t out_len) {
  struct pair_call call = {plan, plan_len, v, w, out, out_len, 0};
  make(make_pair, &call, &pair_took);
  return call.answer;
}

/* Tells what the calls of a function took at most: WELLEMBER_STACK is to be at least a third above it. */
static void tell(const char *function, size_t most) {
  printf("%s took %zu of %d bytes of stack at most\n", function, most, WELLEMBER_STACK);
  expect("the stack is less than a third above that", 4 * most > 3 * (size_t)WELLEMBER_STACK, 0);
}

/* The triangle of document 01: links 0-1, 0-2, 1-2, one event with q = 1 for each link, t = 1, cap = 100. */
static const uint8_t triangle[47] = {
    'R', 'S', 'G', 1, 0, 3, 3, 3, 1, 0, 0, 0, 0, 0, 0, 0, 100, 0, 0, 0, /* header */
    0, 1, 0, 2, 1, 2,                                                   /* links */
    1, 0, 0, 0, 1, 1, 0, 1, 0, 0, 0, 1, 1, 1, 1, 0, 0, 0, 1, 1, 2,      /* events */
};

/* Marked plan 3: one link, one event on it with q = 10^8, t = 10^17 + 1: bounds 0 and 10^17. */
static const uint8_t narrow[29] = {
    'R', 'S', 'G', 1, 0, 2, 1, 1, 1, 0, 0x8a, 0x5d, 0x78, 0x45, 0x63, 1, 100, 0, 0, 0, 0, 1, 0, 0xe1, 0xf5, 5, 1, 1, 0,
};

static uint32_t check(const uint8_t *bytes, size_t length) {
  return made_check(copied(bytes, length), length);
}

/* The triangle with one byte changed. */
static uint32_t changed(size_t at, uint8_t byte) {
  uint8_t bytes[sizeof triangle];
  memcpy(bytes, triangle, sizeof bytes);
  bytes[at] = byte;
  return check(bytes, sizeof bytes);
}

static void checks(void) {
  expect("triangle", check(triangle, sizeof triangle), 0);
  for (size_t length = 0; length < sizeof triangle; length++) {
    expect("triangle cut off", check(triangle, length), 1);
  }
  expect("no bytes", made_check(NULL, 0), 1);
  expect("mark", changed(0, 'r'), 2);
  expect("version", changed(3, 2), 3);
  expect("no node", changed(5, 0), 4);
  expect("65 nodes", changed(5, 65), 4);
  expect("threshold 0", changed(8, 0), 5);
  expect("threshold above one whole", changed(15, 255), 5);
  expect("cap 0", changed(16, 0), 6);
  expect("cap above 1,000,000", changed(18, 16), 6);
  expect("ends of a link", changed(20, 1), 7);
  expect("probability above 1", changed(29, 255), 8);
  expect("probability that rises", changed(33, 2), 9);
  expect("kind of a member", changed(31, 2), 10);
  expect("number of a member", changed(32, 3), 10);
  uint8_t more[sizeof triangle + 1] = {0};
  memcpy(more, triangle, sizeof triangle);
  expect("a byte left", check(more, sizeof more), 11);
}

/* The bounds of a pair into a buffer of `room` bytes that hold 0xa5: `right` is the number of the refusal; after an acceptance the first 16
 * bytes are `bytes`, and no other byte has changed. */
static void pair(const char *what, const uint8_t *plan, size_t length, uint32_t v, uint32_t w, size_t room, uint32_t right, const uint8_t *bytes) {
  uint8_t *out = guarded(room);
  memset(out, 0xa5, room);
  expect(what, made_pair(copied(plan, length), length, v, w, out, room), right);
  for (size_t i = 0; i < room; i++) {
    expect(what, out[i], right == 0 && i < 16 ? bytes[i] : 0xa5);
  }
}

static void pairs(void) {
  static const uint8_t triangle_bounds[16] = {0, 0, 0, 0, 0, 0, 0, 0, 4, 0, 0, 0, 0, 0, 0, 0};
  static const uint8_t narrow_bounds[16] = {0, 0, 0, 0, 0, 0, 0, 0, 0, 0, 0x8a, 0x5d, 0x78, 0x45, 0x63, 1};
  size_t whole = sizeof triangle;
  pair("pair 0 1", triangle, whole, 0, 1, 16, 0, triangle_bounds);
  pair("pair 0 2", triangle, whole, 0, 2, 17, 0, triangle_bounds);
  pair("pair 1 2", triangle, whole, 1, 2, 4096, 0, triangle_bounds);
  pair("marked plan 3", narrow, sizeof narrow, 0, 1, 16, 0, narrow_bounds);
  pair("file before buffer", triangle, whole - 1, 0, 1, 15, 1, NULL);
  pair("buffer", triangle, whole, 0, 1, 15, 12, NULL);
  pair("no buffer", triangle, whole, 0, 1, 0, 12, NULL);
  pair("buffer before pair", triangle, whole, 1, 1, 15, 12, NULL);
  pair("pair of one node", triangle, whole, 1, 1, 16, 13, NULL);
  pair("pair backwards", triangle, whole, 1, 0, 16, 13, NULL);
  pair("no such node", triangle, whole, 0, 3, 16, 13, NULL);
  pair("greatest number", triangle, whole, UINT32_MAX - 1, UINT32_MAX, 16, 13, NULL);
  expect("no memory at all", made_pair(NULL, 0, 0, 1, NULL, 0), 1);
  expect("no memory for the bounds", made_pair(triangle, whole, 0, 1, NULL, 0), 12);
}

/* An example plan: the number of the check, and of each pair of its first nodes. */
static void example(const char *folder, const char *name, uint32_t nodes, uint32_t right) {
  static uint8_t bytes[50070];
  char path[4096];
  snprintf(path, sizeof path, "%s/%s", folder, name);
  FILE *file = fopen(path, "rb");
  if (file == NULL) {
    perror(path);
    exit(2);
  }
  size_t length = fread(bytes, 1, sizeof bytes, file);
  fclose(file);
  expect(name, check(bytes, length), right);
  uint8_t *plan = copied(bytes, length);
  for (uint32_t v = 0; v < nodes; v++) {
    for (uint32_t w = v + 1; w < nodes; w++) {
      uint8_t out[16];
      expect(name, made_pair(plan, length, v, w, out, sizeof out), right);
    }
  }
}

int main(int count, char **words) {
  if (count != 2) {
    fprintf(stderr, "usage: test FOLDER\n");
    return 2;
  }
  stack = pages(WELLEMBER_STACK + page_size(), 0) + page_size();
  checks();
  pairs();
  example(words[1], "triangle.plan", 3, 0);
  example(words[1], "ring-of-six.plan", 6, 0);
  example(words[1], "shared-duct.plan", 4, 0);
  example(words[1], "refused-rising-probability.plan", 3, 9);
  example(words[1], "mesh-64-nodes-19-events.plan", 2, 0);
  tell("wellember_check", check_took);
  tell("wellember_pair", pair_took);
  printf("%s\n", wrong == 0 ? "host test: passed" : "host test: FAILED");
  return wrong != 0;
}
