/* Calls the exports of guest.c's component. The engine is chosen when it is linked: native.c or interp.cc. */
#include "../canon.h"
#include "component.h"
#include "demo_engine.h"

#include <inttypes.h>
#include <stdio.h>
#include <stdlib.h>
#include <string.h>

/* What the component imports: a clock, and a log that prints. */
typedef struct {
  uint32_t now;
  canon_store *of;
} world;

static bool host(void *data, uint32_t import, const uint8_t *params, size_t len, canon_bytes *results) {
  world *w = data;
  canon_reader r = canon_read(params, len);
  if (import == CLOCK) return canon_put_u32(results, ++w->now);
  if (import != LOG) return false;
  size_t n;
  const char *text = canon_get_text(&r, &n);
  printf("  log: %.*s\n", (int)n, text);
  /* a call from within a call of the same store is refused */
  uint64_t live;
  if (w->of && canon_live(w->of, &live) == CANON_BUSY) printf("  busy\n");
  return r.ok;
}

/* Prints the events of a call, where it is asked to. */
static void trace(void *data, const canon_event *event) {
  static const char *const demands[] = {"start", "resume", "realloc", "post-return", "dtor", "instantiate"};
  static const char *const ends[] = {"returns", "asks", "traps", "short"};
  if (!*(bool *)data) return;
  printf("  %s", demands[event->demand]);
  if (event->demand == CANON_START) printf(" %" PRIu32, event->func);
  if (event->demand == CANON_REALLOC) printf(" of %" PRIu64, event->words[3]);
  printf(": %s", ends[event->step->end]);
  if (event->step->end == CANON_ASKS) printf(" for %" PRIu32, event->step->import);
  printf("\n");
}
static bool traces;

static void refused(const char *name, canon_status status, const canon_why *why) {
  char text[128];
  canon_why_text(why, text, sizeof text);
  if (status == CANON_REFUSED) printf("%s: refused %s\n", name, text);
  else if (status == CANON_SENSELESS) printf("%s: senseless, %s\n", name, text);
  else printf("%s: %s\n", name, status == CANON_BUSY ? "busy" : "over");
}

/* Calls an export with these parameters, and frees them. The reader is of the results, which `results` keeps. */
static bool call(canon_store *s, const char *name, uint32_t export_number, canon_bytes *params, canon_bytes *results, canon_reader *r) {
  canon_why why;
  canon_status status = canon_call(s, export_number, params->bytes, params->len, results, &why);
  canon_bytes_free(params);
  if (status != CANON_OK) return refused(name, status, &why), false;
  *r = canon_read(results->bytes, results->len);
  return true;
}

static void words(canon_store *s, const char *text, size_t len) {
  canon_bytes params = {0}, results = {0};
  canon_reader r;
  canon_put_text(&params, text, len);
  if (call(s, "words", WORDS, &params, &results, &r)) {
    uint64_t count = canon_get_u64(&r);
    printf("words: %" PRIu64 ":", count);
    for (uint64_t i = 0; i < count && i < 6; i++) printf(" %" PRIu32, canon_get_u32(&r));
    printf("%s\n", count > 6 ? " .." : "");
  }
  canon_bytes_free(&results);
}

static void greet(canon_store *s, const char *name) {
  canon_bytes params = {0}, results = {0};
  canon_reader r;
  canon_put_text(&params, name, strlen(name));
  if (call(s, "greet", GREET, &params, &results, &r)) {
    size_t n;
    const char *text = canon_get_text(&r, &n);
    printf("greet: %.*s\n", (int)n, text);
  }
  canon_bytes_free(&results);
}

static void total(canon_store *s) {
  static const struct { const char *name; uint32_t count; } items[] = {{"pears", 3}, {"apples", 40}, {"figs", 4000000000u}};
  canon_bytes params = {0}, results = {0};
  canon_reader r;
  canon_put_u64(&params, 3);
  for (int i = 0; i < 3; i++) canon_put_text(&params, items[i].name, strlen(items[i].name)), canon_put_u32(&params, items[i].count);
  if (call(s, "total", TOTAL, &params, &results, &r)) {
    uint64_t sum = canon_get_u64(&r);
    size_t n;
    const char *longest = canon_get_text(&r, &n);
    printf("total: sum %" PRIu64 ", longest %.*s\n", sum, (int)n, longest);
  }
  canon_bytes_free(&results);
}

static uint32_t number(canon_store *s, const char *name, uint32_t export_number, uint32_t n, bool has_param) {
  canon_bytes params = {0}, results = {0};
  canon_reader r;
  uint32_t result = 0;
  if (has_param) canon_put_u32(&params, n);
  if (call(s, name, export_number, &params, &results, &r)) printf("%s: %" PRIu32 "\n", name, result = canon_get_u32(&r));
  canon_bytes_free(&results);
  return result;
}

static void live(canon_store *s) {
  uint64_t n;
  if (canon_live(s, &n) == CANON_OK) printf("live: %" PRIu64 "\n", n);
}

static void same(canon_store *s, uint32_t a, int8_t b) {
  canon_bytes params = {0}, results = {0};
  canon_reader r;
  canon_put_u32(&params, a), canon_put_u8(&params, (uint8_t)b);
  if (call(s, "same", SAME, &params, &results, &r)) printf("same: %s\n", canon_get_u8(&r) ? "true" : "false");
  canon_bytes_free(&results);
}

static canon_store *open_store(void *engine_data, world *w, const char *of) {
  canon_setup setup = {of, false, demo_engine, engine_data, host, w, trace, &traces, 0, false};
  canon_why why;
  canon_store *s = canon_store_new(&setup, &why);
  if (!s) refused("no store", why.reason ? CANON_SENSELESS : why.error ? CANON_REFUSED : CANON_OVER, &why);
  return s;
}

int main(void) {
  world w = {6, NULL}, v = {0, NULL};
  void *one = demo_engine_new(), *two = demo_engine_new(), *three = demo_engine_new();
  canon_store *s = open_store(one, &w, component), *t = open_store(two, &v, component);
  if (!s || !t) return 1;
  w.of = s;

  words(s, "the quick brown fox", 19);
  greet(s, "Anna");
  greet(t, "Otto"); /* another store: its clock, its memory */
  traces = true;
  greet(s, "Zoë");
  traces = false;
  total(s);
  same(s, 7, 7);
  same(s, 4294967295u, -1); /* an s8 is widened to 32 bits */
  same(s, 255, -1);

  /* 300,000 bytes: the module makes its memory longer */
  static char many[300000];
  for (size_t i = 0; i < sizeof many; i++) many[i] = i % 8 == 7 ? ' ' : 'x';
  words(s, many, sizeof many);
  canon_bytes marks = {0};
  if (canon_marks(s, &marks) == CANON_OK) {
    printf("marks: %zu,", marks.len);
    size_t lawful = 0;
    for (size_t i = 0; i < marks.len; i++) lawful += marks.bytes[i] & 1;
    printf(" lawful %zu\n", lawful);
  }
  canon_bytes_free(&marks);

  live(s);
  uint32_t handle = number(s, "make", MAKE, 40, true);
  live(s);
  number(s, "unmake", UNMAKE, handle, true);
  live(s);

  canon_bytes bad = {0}, r = {0};
  canon_reader none;
  canon_put_u16(&bad, 7);
  call(s, "words of two bytes", WORDS, &bad, &r, &none);
  call(s, "no export", 99, &bad, &r, &none);
  number(s, "broken", BROKEN, 0, false);
  words(s, "the store is shut", 17);
  number(t, "crash", CRASH, 0, false);
  canon_bytes_free(&bad), canon_bytes_free(&r);
  if (!canon_store_free(s) || !canon_store_free(t)) return 1;

  if (!(t = open_store(three, &v, component))) return 1;
  number(t, "unmake", UNMAKE, 99, true);
  canon_store_free(t);
  if (open_store(three, &v, "{\"funcs\": 7}")) return 1;
  demo_engine_free(one), demo_engine_free(two), demo_engine_free(three);
  return 0;
}
