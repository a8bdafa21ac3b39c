/* Asks for the text of the sheet in the file that is named, from two threads and
 * from a signal handler that interrupts their calls. Every text must be that of
 * a quiet call. */

#define _XOPEN_SOURCE 700
#include <pthread.h>
#include <signal.h>
#include <stdio.h>
#include <string.h>
#include <sys/time.h>

#include "bridgetext.h"

enum { MOST = 65536, HANDLED = 500 };

static uint8_t sheet[MOST];
static size_t sheet_len;
static uint8_t wanted[MOST];
static int64_t wanted_len;

static volatile sig_atomic_t handled;
static volatile sig_atomic_t wrong;

/* Asks once more, with this buffer. */
static void ask(uint8_t *buf) {
  memset(buf, 0, MOST);
  if (bridgetext_write(sheet, sheet_len, buf, MOST) != wanted_len ||
      memcmp(buf, wanted, MOST) != 0) {
    wrong = 1;
  }
}

static void handle(int number) {
  static uint8_t buf[MOST];
  (void)number;
  ask(buf);
  handled = handled + 1;
}

static void *run(void *buf) {
  while (handled < HANDLED && !wrong) {
    ask(buf);
  }
  return NULL;
}

int main(int argc, char **argv) {
  static uint8_t bufs[2][MOST];
  FILE *file = argc == 2 ? fopen(argv[1], "rb") : NULL;
  if (file == NULL) {
    return 2;
  }
  sheet_len = fread(sheet, 1, sizeof sheet, file);
  wanted_len = bridgetext_write(sheet, sheet_len, wanted, sizeof wanted);
  if (wanted_len <= 0) {
    return 2;
  }

  /* While the handler runs its signal is blocked in that thread alone, so only
   * the first thread takes it: the handler has one buffer. */
  sigset_t alarms;
  sigemptyset(&alarms);
  sigaddset(&alarms, SIGALRM);
  struct sigaction action;
  memset(&action, 0, sizeof action);
  action.sa_handler = handle;
  struct itimerval each = {{0, 200}, {0, 200}};
  pthread_t other;
  if (sigaction(SIGALRM, &action, NULL) != 0 || pthread_sigmask(SIG_BLOCK, &alarms, NULL) != 0 ||
      pthread_create(&other, NULL, run, bufs[1]) != 0 ||
      pthread_sigmask(SIG_UNBLOCK, &alarms, NULL) != 0 ||
      setitimer(ITIMER_REAL, &each, NULL) != 0) {
    return 2;
  }
  run(bufs[0]);
  pthread_join(other, NULL);
  return wrong;
}
