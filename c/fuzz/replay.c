/* Replays inputs without a fuzzer: those of the files that it is given, one on a line, in hex, beside lines that begin with #. It prints how
 * many they were and a digest of all answers; with --each first the digest of each input. */
#include <stdio.h>
#include <string.h>

#include "world.h"

static unsigned digit(char c) { return (unsigned)(c <= '9' ? c - '0' : c - 'a' + 10); }

static size_t bytes_of(const char *line, uint8_t *bytes) {
  size_t len = strcspn(line, "\n") / 2;
  for (size_t i = 0; i < len; i++) bytes[i] = (uint8_t)(digit(line[2 * i]) << 4 | digit(line[2 * i + 1]));
  return len;
}

int main(int count, char **names) {
  static char line[1 << 17];
  static uint8_t bytes[sizeof line / 2];
  int inputs = 0, first = 1;
  uint64_t all = 0;
  bool each = count > 1 && strcmp(names[1], "--each") == 0;
  if (each) first = 2;
  for (int i = first; i < count; i++) {
    FILE *file = fopen(names[i], "r");
    if (file == NULL) {
      perror(names[i]);
      return 1;
    }
    for (; fgets(line, sizeof line, file) != NULL; inputs += line[0] != '#') {
      if (line[0] == '#') continue;
      uint64_t digest = run(bytes, bytes_of(line, bytes));
      if (each) printf("%d %016llx\n", inputs, (unsigned long long)digest);
      all = (all ^ digest) * UINT64_C(0x100000001b3);
    }
    (void)fclose(file);
  }
  printf("%d inputs, digest %016llx\n", inputs, (unsigned long long)all);
  return 0;
}
