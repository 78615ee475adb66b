/* Times calls of guest.c's component: by canon_call, in a session, and of the engine alone with no host side, which writes the parameter into memory and starts
 * the function. Prints the nanoseconds of a call, in the best of some rounds of calls one after another. */
#define _POSIX_C_SOURCE 199309L
#include "../canon.h"
#include "component.h"
#include "demo_engine.h"

#include <inttypes.h>
#include <stdio.h>
#include <stdlib.h>
#include <string.h>
#include <time.h>

typedef struct {
  const char *name;
  uint32_t export_number;
  size_t len; /* of the text or list, if it has one */
  uint32_t calls; /* of a round */
  int rounds;
} subject;

static const subject subjects[] = {
    {"same(u32, s8) -> bool", SAME, 0, 100, 1000},
    {"length(string of 16 bytes)", LENGTH, 16, 100, 1000},
    {"length(string of 1 KiB)", LENGTH, 1024, 100, 1000},
    {"length(string of 1 MiB)", LENGTH, 1048576, 1, 100},
    {"sum(list<u8> of 1 MiB)", SUM, 1048576, 1, 15},
};

static double now(void) {
  struct timespec t;
  clock_gettime(CLOCK_MONOTONIC, &t);
  return (double)t.tv_sec * 1e9 + (double)t.tv_nsec;
}

static canon_bytes image_of(const subject *it) {
  canon_bytes b = {0};
  if (it->export_number == SAME) {
    canon_put_u32(&b, 7), canon_put_u8(&b, 7);
    return b;
  }
  canon_put_u64(&b, it->len);
  for (size_t i = 0; i < it->len; i++) canon_put_u8(&b, (uint8_t)('a' + i % 26));
  return b;
}

static canon_setup setup_of(void *engine) {
  canon_setup setup = {component, false, demo_engine, engine, NULL, NULL, NULL, NULL, 0, false};
  return setup;
}

static double least(double a, double b) { return a < b ? a : b; }

static double by_store(const subject *it) {
  void *engine = demo_engine_new();
  canon_setup setup = setup_of(engine);
  canon_store *s = canon_store_new(&setup, NULL);
  canon_bytes params = image_of(it), results = {0}, marks = {0};
  double best = 1e18;
  if (!s) exit(1);
  for (int r = 0; r < it->rounds; r++) {
    double from = now();
    for (uint32_t i = 0; i < it->calls; i++)
      if (canon_call(s, it->export_number, params.bytes, params.len, &results, NULL) != CANON_OK) exit(1);
    best = least(best, now() - from);
    canon_marks(s, &marks);
  }
  canon_bytes_free(&params), canon_bytes_free(&results), canon_bytes_free(&marks);
  canon_store_free(s);
  demo_engine_free(engine);
  return best / it->calls;
}

typedef struct {
  const subject *of;
  canon_bytes params;
  int round;
  uint32_t calls;
  double from, best;
} session;

static bool next(void *data, const canon_answer *last, canon_command *command) {
  session *s = data;
  if (last->status != CANON_OK) exit(1);
  if (s->calls == s->of->calls) {
    s->best = least(s->best, now() - s->from);
    s->calls = 0;
    command->what = CANON_DO_MARKS;
    return ++s->round < s->of->rounds;
  }
  if (s->calls++ == 0) s->from = now();
  command->what = CANON_DO_CALL;
  command->export_number = s->of->export_number;
  command->params = s->params.bytes;
  command->len = s->params.len;
  return true;
}

static double by_session(const subject *it) {
  void *engine = demo_engine_new();
  canon_setup setup = setup_of(engine);
  session s = {it, image_of(it), 0, 0, 0, 1e18};
  if (!canon_session(&setup, next, &s)) exit(1);
  canon_bytes_free(&s.params);
  demo_engine_free(engine);
  return s.best / it->calls;
}

/* The engine alone: a block, the bytes copied into it, the function, and post-return. */
static double by_engine(const subject *it) {
  enum { LEN = 4 * 1024 * 1024 };
  static uint8_t bytes[LEN];
  void *engine = demo_engine_new();
  canon_memory m = {bytes, 131072};
  const canon_engine *e = demo_engine;
  canon_bytes params = image_of(it);
  double best = 1e18;
  if (!e->instantiate(engine, &m)) exit(1);
  m.len = LEN;
  for (int r = 0; r < it->rounds; r++) {
    double from = now();
    for (uint32_t i = 0; i < it->calls; i++) {
      uint64_t words[2] = {7, 7};
      if (it->len) {
        words[0] = e->realloc(engine, &m, 0, 0, 1, it->len).words[0];
        words[1] = it->len;
        memcpy(m.bytes + words[0], params.bytes + 8, it->len);
      }
      canon_step step = e->start(engine, &m, it->export_number, words, 2);
      if (step.end != CANON_RETURNS) exit(1);
      if (it->len) e->post_return(engine, &m, it->export_number, step.words, 1);
    }
    best = least(best, now() - from);
  }
  canon_bytes_free(&params);
  demo_engine_free(engine);
  return best / it->calls;
}

int main(void) {
  printf("%-28s %14s %14s %14s\n", "ns a call", "canon_call", "session", "engine alone");
  for (size_t i = 0; i < sizeof subjects / sizeof *subjects; i++) {
    const subject *it = &subjects[i];
    printf("%-28s %14.0f %14.0f %14.0f\n", it->name, by_store(it), by_session(it), by_engine(it));
    fflush(stdout);
  }
  return 0;
}
