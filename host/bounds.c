/* Prints the bounds of a pair of nodes of a plan file, or the number of the refusal.
 *
 *   bounds PLAN V W
 *
 * Exit status: 0 the bounds are printed; 1 refused; 2 the words are wrong, the file is not read or the answer is not written. */
#include <errno.h>
#include <inttypes.h>
#include <stdio.h>
#include <string.h>

#include "wellember.h"

/* The longest plan has 50,068 bytes; the refusal of a longer file is decided by its first 50,070. */
enum { PLAN_MOST = 50070 };

/* Tells what is wrong with a word. Of a word, what is no plain character is shown as \x1b and so on. */
static int wrong(const char *word, const char *why) {
  fputs("bounds: ", stderr);
  for (; *word != '\0'; word++) {
    unsigned char byte = (unsigned char)*word;
    fprintf(stderr, byte >= ' ' && byte <= '~' ? "%c" : "\\x%02x", byte);
  }
  fprintf(stderr, ": %s\n", why);
  return 2;
}

static uint64_t number(const uint8_t *bytes) {
  uint64_t sum = 0;
  for (int i = 8; i > 0; i--) {
    sum = sum << 8 | bytes[i - 1];
  }
  return sum;
}

/* Whether a word is digits alone, and the node's number that it says; a number that is too large is no node of any plan. */
static int is_node(const char *word, uint32_t *node) {
  uint64_t sum = 0;
  const char *digit = word;
  for (; *digit >= '0' && *digit <= '9'; digit++) {
    sum = sum > UINT32_MAX ? sum : 10 * sum + (uint64_t)(*digit - '0');
  }
  *node = sum > UINT32_MAX ? UINT32_MAX : (uint32_t)sum;
  return digit != word && *digit == '\0';
}

/* Reads at most PLAN_MOST bytes of a file; gives 0, or the number of the error. */
static int read_plan(const char *path, uint8_t *plan, size_t *length) {
  FILE *file = fopen(path, "rb");
  if (file == NULL) {
    return errno;
  }
  *length = fread(plan, 1, PLAN_MOST, file);
  int failed = ferror(file) ? errno : 0;
  fclose(file);
  return failed;
}

int main(int count, char **words) {
  static uint8_t plan[PLAN_MOST];
  uint8_t out[16];
  size_t length = 0;
  uint32_t nodes[2];
  if (count != 4) {
    fprintf(stderr, "bounds: expected PLAN V W, a plan file and two nodes; found %d words\n", count > 0 ? count - 1 : 0);
    return 2;
  }
  for (int i = 0; i < 2; i++) {
    if (!is_node(words[2 + i], &nodes[i])) {
      return wrong(words[2 + i], "expected the number of a node, in digits");
    }
  }
  int failed = read_plan(words[1], plan, &length);
  if (failed != 0) {
    return wrong(words[1], strerror(failed));
  }
  uint32_t refusal = wellember_pair(plan, length, nodes[0], nodes[1], out, sizeof out);
  if (refusal != 0) {
    printf("refused %" PRIu32 "\n", refusal);
  } else {
    printf("%" PRIu64 " %" PRIu64 "\n", number(out), number(out + 8));
  }
  if (fclose(stdout) != 0) {
    return wrong("standard output", strerror(errno));
  }
  return refusal != 0;
}
