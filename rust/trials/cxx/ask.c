/* Puts the sheet on standard input through the services, each with a buffer of
 * as many bytes as the first argument says, filled with 'Z'. Prints the answers
 * and, in hex, the buffers. */

#include <stdio.h>
#include <stdlib.h>
#include <string.h>

#include "bridgetext.h"
#include "bridgetext.h"

#define MOST 70000

static uint8_t sheet[MOST];
static uint8_t buf[MOST];

static void print(const char *service, int64_t answer, size_t len) {
  printf("%s %ld", service, (long)answer);
  if (answer == -BRIDGETEXT_OVERRUN) {
    printf(" overrun");
  }
  putchar(' ');
  for (size_t i = 0; i < len; i++) {
    printf("%02x", buf[i]);
  }
  putchar('\n');
}

int main(int argc, char **argv) {
  size_t buf_len = argc > 1 ? (size_t)atol(argv[1]) : 0;
  size_t sheet_len = fread(sheet, 1, sizeof sheet, stdin);
  print("check", bridgetext_check(sheet, sheet_len), 0);
  memset(buf, 'Z', sizeof buf);
  print("order", bridgetext_struct_order(sheet, sheet_len, buf, buf_len), buf_len);
  memset(buf, 'Z', sizeof buf);
  print("write", bridgetext_write(sheet, sheet_len, buf, buf_len), buf_len);
  return buf_len > sizeof buf;
}
