/* A first call: greet("Anna") of guest.c's component. */
#include "../canon.h"
#include "component.h"
#include "demo_engine.h"

#include <stdio.h>

/* What the component imports: a clock that stands still, and a log that keeps nothing. */
static bool host(void *data, uint32_t import, const uint8_t *params, size_t len, canon_bytes *results) {
  (void)data, (void)params, (void)len;
  return import == CLOCK ? canon_put_u32(results, 7) : import == LOG;
}

int main(void) {
  void *engine = demo_engine_new();
  canon_setup setup = {component, false, demo_engine, engine, host, NULL, NULL, NULL, 0, false};
  canon_why why;
  char text[128];
  canon_store *store = engine ? canon_store_new(&setup, &why) : NULL;
  if (!store) return 1;

  canon_bytes params = {0}, results = {0};
  canon_put_text(&params, "Anna", 4);
  canon_status status = canon_call(store, GREET, params.bytes, params.len, &results, &why);
  if (status == CANON_OK) {
    canon_reader reader = canon_read(results.bytes, results.len);
    size_t len;
    const char *greeting = canon_get_text(&reader, &len);
    printf("%.*s\n", (int)len, greeting);
  } else {
    canon_why_text(&why, text, sizeof text);
    printf("refused: %s\n", text);
  }

  canon_bytes_free(&params);
  canon_bytes_free(&results);
  canon_store_free(store);
  demo_engine_free(engine);
  return status == CANON_OK ? 0 : 1;
}
