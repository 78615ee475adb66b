/* The library as it is, over descriptors: canon.c is compiled with `canon_serve` renamed to piped_serve, which runs the library at the other end of a socket
 * pair, in a thread or (CANON_PIPED=process) in a process, and passes on each message. Memory crosses as bytes, there and back. */
#include <errno.h>
#include <pthread.h>
#include <stdbool.h>
#include <stddef.h>
#include <stdint.h>
#include <stdlib.h>
#include <string.h>
#include <sys/socket.h>
#include <sys/wait.h>
#include <unistd.h>

uint32_t canon_serve(int32_t channel);
ssize_t canon_channel_read(int channel, void *to, size_t n);
ssize_t canon_channel_write(int channel, const void *from, size_t n);

enum { COMMAND_BYTES = 32, REPLY_BYTES = 168 };

typedef struct {
  int channel; /* of canon.c */
  int socket;
  uint8_t *bytes; /* of a message, or memory */
  size_t room;
} pipe_end;

static bool has_room(pipe_end *p, size_t n) {
  if (n <= p->room) return true;
  uint8_t *to = realloc(p->bytes, n);
  if (!to) return false;
  p->bytes = to;
  p->room = n;
  return true;
}
static bool receive(pipe_end *p, size_t at, size_t n) {
  if (!has_room(p, at + n)) return false;
  while (n > 0) {
    ssize_t got = read(p->socket, p->bytes + at, n);
    if (got < 0 && errno == EINTR) continue;
    if (got <= 0) return false;
    at += (size_t)got, n -= (size_t)got;
  }
  return true;
}
static bool send_all(pipe_end *p, size_t n) {
  for (size_t at = 0; at < n;) {
    ssize_t put = send(p->socket, p->bytes + at, n - at, MSG_NOSIGNAL);
    if (put < 0 && errno == EINTR) continue;
    if (put <= 0) return false;
    at += (size_t)put;
  }
  return true;
}
static uint64_t number(const pipe_end *p, size_t place) {
  uint64_t n;
  memcpy(&n, p->bytes + 8 * place, 8);
  return n;
}
static bool tell(pipe_end *p, size_t n) { return n == 0 || canon_channel_write(p->channel, p->bytes, n) == (ssize_t)n; }
/* What canon.c has to say, passed on. */
static bool pass(pipe_end *p, size_t n) {
  if (!has_room(p, n)) return false;
  for (size_t at = 0; at < n;) {
    ssize_t got = canon_channel_read(p->channel, p->bytes + at, n - at);
    if (got <= 0) return false;
    at += (size_t)got;
  }
  return send_all(p, n);
}
/* Memory that the library wrote comes to canon.c, and goes back as the engine leaves it. */
static bool lend(pipe_end *p, size_t n) { return n == 0 || (receive(p, 0, n) && tell(p, n) && pass(p, n)); }

static bool demand(pipe_end *p) {
  if (!receive(p, 24, 32)) return false;
  size_t len = (size_t)number(p, 5), count = (size_t)number(p, 6);
  if (!receive(p, 56, 8 * count) || !tell(p, 56 + 8 * count) || !lend(p, len) || !pass(p, REPLY_BYTES)) return false;
  size_t grown = (size_t)number(p, 2);
  return grown == 0 || lend(p, len + grown);
}
static bool import(pipe_end *p) {
  size_t len = (size_t)number(p, 2);
  if (!tell(p, 24) || !receive(p, 0, len) || !tell(p, len) || !pass(p, 16)) return false;
  len = (size_t)number(p, 1);
  return len == 0 || pass(p, len);
}
static bool answer(pipe_end *p) {
  if (!receive(p, 24, 40) || !tell(p, 64)) return false;
  size_t len = (size_t)number(p, 7);
  return receive(p, 0, len) && tell(p, len);
}

/* Passes a command, and all messages until its answer. */
static bool command(pipe_end *p) {
  if (!pass(p, COMMAND_BYTES)) return false;
  size_t len = (size_t)number(p, 3);
  bool ends = number(p, 0) == 0;
  if (len > 0 && !pass(p, len)) return false;
  if (ends) return false;
  for (;;) {
    if (!receive(p, 0, 24)) return false;
    uint64_t what = number(p, 0);
    if (what == 7) return answer(p);
    if (what == 6 ? !import(p) : !demand(p)) return false;
  }
}

static void *library(void *data) {
  int socket = *(int *)data;
  canon_serve(socket);
  close(socket);
  return NULL;
}

uint32_t piped_serve(int32_t channel) {
  int ends[2];
  pthread_t thread;
  pid_t process = -1;
  const char *how = getenv("CANON_PIPED");
  bool in_process = how && strcmp(how, "process") == 0;
  if (socketpair(AF_UNIX, SOCK_STREAM, 0, ends) != 0) return 1;
  if (in_process) {
    process = fork();
    if (process == 0) {
      close(ends[0]);
      library(&ends[1]);
      _exit(0);
    }
    close(ends[1]);
    if (process < 0) return close(ends[0]), 1;
  } else if (pthread_create(&thread, NULL, library, &ends[1]) != 0) {
    return close(ends[0]), close(ends[1]), 1;
  }
  pipe_end p = {channel, ends[0], NULL, 0};
  while (command(&p)) {
  }
  close(ends[0]);
  free(p.bytes);
  if (in_process) waitpid(process, NULL, 0);
  else pthread_join(thread, NULL);
  return 0;
}
