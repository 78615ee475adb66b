/* A session without a stack of its own: the library runs on this one, and asks for each command. */
#include "../canon.h"
#include "component.h"
#include "demo_engine.h"

#include <inttypes.h>
#include <stdio.h>
#include <string.h>

/* Where the program stands. */
typedef struct {
  int at;
  canon_bytes params;
} program;

static bool host(void *data, uint32_t import, const uint8_t *params, size_t len, canon_bytes *results) {
  (void)data, (void)params, (void)len;
  return import == LOG || (import == CLOCK && canon_put_u32(results, 7));
}

static void show_events(const char *name, canon_reader r) {
  static const char *const kinds[] = {"start", "resume", "realloc", "post-return", "destructor", "", "return", "ask", "trap", "trap"};
  canon_kept event;
  printf("%s:", name);
  while (canon_get_event(&r, &event)) {
    printf(" %s", kinds[event.kind]);
    if (event.kind == CANON_KEPT_ASK) printf(" %" PRIu64, event.operands[0]);
  }
  printf("\n");
}

static void show(const char *name, const canon_answer *a) {
  char text[128];
  canon_why_text(&a->why, text, sizeof text);
  canon_reader r = canon_read(a->bytes, a->len);
  size_t n;
  if (a->status != CANON_OK) printf("%s: %s\n", name, text);
  else if (strcmp(name, "greet") == 0) {
    const char *greeting = canon_get_text(&r, &n);
    printf("%s: %.*s\n", name, (int)n, greeting);
  } else if (strcmp(name, "same") == 0) printf("%s: %s\n", name, canon_get_u8(&r) ? "true" : "false");
  else if (strcmp(name, "live") == 0) printf("%s: %" PRIu64 "\n", name, canon_get_u64(&r));
  else if (strcmp(name, "events") == 0) show_events(name, r);
  else printf("%s: %zu bytes\n", name, a->len);
}

static bool next(void *data, const canon_answer *last, canon_command *command) {
  program *p = data;
  static const char *const done[] = {"made", "greet", "events", "same", "live", "marks", "crash", "same"};
  show(done[p->at], last);
  p->params.len = 0;
  switch (p->at++) {
    case 0: command->export_number = GREET, canon_put_text(&p->params, "Anna", 4); break;
    case 1: command->what = CANON_DO_EVENTS; return true;
    case 2: command->export_number = SAME, canon_put_u32(&p->params, 7), canon_put_u8(&p->params, 7); break;
    case 3: command->what = CANON_DO_LIVE; return true;
    case 4: command->what = CANON_DO_MARKS; return true;
    case 5: command->export_number = CRASH; break;
    case 6: command->export_number = SAME, canon_put_u32(&p->params, 7), canon_put_u8(&p->params, 7); break;
    default: return false;
  }
  command->what = CANON_DO_CALL;
  command->params = p->params.bytes;
  command->len = p->params.len;
  return true;
}

static bool refused(void *data, const canon_answer *last, canon_command *command) {
  (void)data, (void)command;
  show("made", last);
  return true;
}

int main(void) {
  void *engine = demo_engine_new();
  program p = {0, {NULL, 0, 0}};
  canon_setup setup = {component, true, demo_engine, engine, host, NULL, NULL, NULL, 0, true};
  if (!engine || !canon_session(&setup, next, &p)) return 1;
  setup.component = "no JSON";
  if (canon_session(&setup, refused, NULL)) return 1;
  canon_bytes_free(&p.params);
  demo_engine_free(engine);
  return 0;
}
