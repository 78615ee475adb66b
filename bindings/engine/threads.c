/* Several stores at once: each of eight threads makes stores of its own and calls them, and calls one store that all share. The shared one serves one call at a
 * time, on whatever thread it comes, and refuses the others. */
#include "../canon.h"

#include <inttypes.h>
#include <pthread.h>
#include <stdio.h>
#include <string.h>

enum { THREADS = 8, STORES = 20, CALLS = 200, HEAP = 1024 };

static const char component[] = "{\"funcs\": [{\"params\": [\"string\"], \"results\": [\"string\"], \"post\": true}]}";

/* An engine whose function returns the text that it is passed. */
typedef struct {
  uint32_t top;
} mirror;

static canon_step gives(uint32_t count, uint64_t word) {
  canon_step step = {CANON_RETURNS, 0, count, {word}};
  return step;
}
static bool m_instantiate(void *data, canon_memory *m) {
  mirror *it = data;
  it->top = HEAP;
  memset(m->bytes, 0, m->len);
  return true;
}
static canon_step m_start(void *data, canon_memory *m, uint32_t func, const uint64_t *words, size_t count) {
  uint32_t text[2] = {(uint32_t)words[0], (uint32_t)words[1]};
  (void)data, (void)func, (void)count;
  memcpy(m->bytes + 8, text, 8);
  return gives(1, 8);
}
static canon_step m_resume(void *data, canon_memory *m, const uint64_t *words, size_t count) { return m_start(data, m, 0, words, count); }
static canon_step m_realloc(void *data, canon_memory *m, uint64_t old, uint64_t old_size, uint32_t align, uint64_t size) {
  mirror *it = data;
  uint32_t at = (it->top + align - 1) / align * align;
  (void)m, (void)old, (void)old_size;
  it->top = at + (uint32_t)size;
  return gives(1, at);
}
static canon_step m_post(void *data, canon_memory *m, uint32_t func, const uint64_t *words, size_t count) {
  mirror *it = data;
  (void)m, (void)func, (void)words, (void)count;
  it->top = HEAP;
  return gives(0, 0);
}
static canon_step m_dtor(void *data, canon_memory *m, uint32_t func, uint32_t rep) { return (void)data, (void)m, (void)func, (void)rep, gives(0, 0); }
static const canon_engine engine = {m_instantiate, m_start, m_resume, m_realloc, m_post, m_dtor};

static canon_store *store_of(mirror *data) {
  canon_setup setup = {component, false, &engine, data, NULL, NULL, NULL, NULL, 0, false};
  return canon_store_new(&setup, NULL);
}

static canon_store *shared;

/* Whether a text comes back. A store that is busy is as good where it is shared. */
static bool comes_back(canon_store *store, const char *text, size_t len) {
  canon_bytes params = {0}, results = {0};
  canon_put_text(&params, text, len);
  canon_status status = canon_call(store, 0, params.bytes, params.len, &results, NULL);
  bool same = status == CANON_OK && results.len == params.len && memcmp(results.bytes, params.bytes, params.len) == 0;
  canon_bytes_free(&params), canon_bytes_free(&results);
  return same || (store == shared && status == CANON_BUSY);
}

static void *thread_main(void *data) {
  int *wrong = data;
  mirror it;
  char text[64];
  for (int i = 0; i < STORES; i++) {
    canon_store *store = store_of(&it);
    for (int k = 0; store && k < CALLS; k++) {
      int len = snprintf(text, sizeof text, "store %d of %p, call %d", i, data, k);
      *wrong += !comes_back(store, text, (size_t)len);
      *wrong += !comes_back(shared, text, (size_t)len);
    }
    *wrong += !store || !canon_store_free(store);
  }
  return NULL;
}

int main(void) {
  pthread_t threads[THREADS];
  int wrong[THREADS] = {0}, all = 0;
  mirror it;
  if (!(shared = store_of(&it))) return 1;
  for (int i = 0; i < THREADS; i++)
    if (pthread_create(&threads[i], NULL, thread_main, &wrong[i]) != 0) return 1;
  for (int i = 0; i < THREADS; i++) pthread_join(threads[i], NULL), all += wrong[i];
  all += !canon_store_free(shared);
  printf("%d threads, wrong answers: %d\n", THREADS, all);
  return all != 0;
}
