/* The hashing of a verdict and nothing else, in plain C: SHA-256 of COUNT messages of 68 bytes, as
   many as a reply has openings. What a claim's verdict takes is set beside it. It prints
   `hashed COUNT` (status 0); status 2 is no count. Build: cc -O3 hash.c */
#include <stdint.h>
#include <stdio.h>
#include <stdlib.h>
#include <string.h>
#include "sha256.h"

int main(int count, char **args) {
  char *end = NULL;
  unsigned long messages = count == 2 ? strtoul(args[1], &end, 10) : 0;
  if (!end || *end || !messages) { fputs("usage: hash COUNT\n", stderr); return 2; }
  uint8_t message[68] = "VKC1", made[32], seen = 0;
  for (unsigned long i = 0; i < messages; i++) {
    memcpy(message + 28, &i, sizeof i);
    sha256_msg(message, sizeof message, made);
    seen |= made[0];   /* so that no digest can be left out */
  }
  if (!seen) return 1;
  printf("hashed %lu\n", messages);
  return 0;
}
