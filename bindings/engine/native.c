/* An engine over the C that wasm2c makes of guest.wasm, and the runtime that this C wants. Memory is that which the library lends, and each access to it is
 * tested (compile with -DWASM_RT_MEMCHECK_SIGNAL_HANDLER=0). Core code runs on a stack of its own, so it can stand still while an import is
 * served. One thread at a time: the depth of calls is counted in one place. */
#define _GNU_SOURCE
#include "demo_engine.h"

#include "fiber.h"
#include "guest_wasm.h"

#include <setjmp.h>
#include <stdlib.h>
#include <string.h>

enum { STACK = 256 * 1024, POST = 12 };

typedef struct native {
  Z_guest_instance_t instance;
  canon_memory *memory; /* that of the step */
  jmp_buf *out;         /* where a trap goes */
  fiber code;
  uint32_t func;
  uint64_t words[CANON_MAX_WORDS]; /* what it is started or resumed with */
  size_t count;
  canon_step step;
  uint32_t depth;
} native;

uint32_t wasm_rt_call_stack_depth;
static native *running;

static canon_step ends(canon_end end) {
  canon_step step = {end, 0, 0, {0}};
  return step;
}
static canon_step gives(uint64_t word) {
  canon_step step = {CANON_RETURNS, 0, 1, {word}};
  return step;
}

/* ---- What the C of wasm2c calls ---- */

void wasm_rt_trap(wasm_rt_trap_t why) {
  (void)why;
  longjmp(*running->out, 1);
}
bool wasm_rt_is_initialized(void) { return true; }
uint32_t wasm_rt_register_func_type(uint32_t params, uint32_t results, ...) { return params * 16 + results; }
void wasm_rt_allocate_funcref_table(wasm_rt_funcref_table_t *table, uint32_t size, uint32_t max) {
  table->data = calloc(size, sizeof *table->data);
  table->size = table->data ? size : 0;
  table->max_size = max;
}
void wasm_rt_free_funcref_table(wasm_rt_funcref_table_t *table) { free(table->data); }
void wasm_rt_free_memory(wasm_rt_memory_t *memory) { (void)memory; }

static void take(wasm_rt_memory_t *to, const canon_memory *from) {
  to->data = from->bytes;
  to->size = (uint32_t)from->len;
  to->pages = (uint32_t)(from->len / 65536);
}
void wasm_rt_allocate_memory(wasm_rt_memory_t *memory, uint32_t pages, uint32_t max) {
  memory->max_pages = max;
  take(memory, running->memory);
  if (memory->pages != pages) wasm_rt_trap(WASM_RT_TRAP_OOB);
}
uint32_t wasm_rt_grow_memory(wasm_rt_memory_t *memory, uint32_t by) {
  uint32_t old = memory->pages;
  if (by > memory->max_pages - old || !canon_grow(running->memory, (size_t)by * 65536)) return UINT32_MAX;
  take(memory, running->memory);
  return old;
}

/* Stands still until the host resumes with its answer, which is no word or one. */
static uint32_t ask(uint32_t import, uint32_t count, uint64_t a, uint64_t b) {
  native *it = running;
  canon_step step = {CANON_ASKS, import, count, {a, b}};
  it->step = step;
  it->depth = wasm_rt_call_stack_depth;
  fiber_leave(&it->code);
  wasm_rt_call_stack_depth = it->depth;
  return it->count ? (uint32_t)it->words[0] : 0;
}
u32 Z_counterZ_new(struct Z_counter_instance_t *c, u32 rep) { return (void)c, ask(0, 1, rep, 0); }
u32 Z_counterZ_rep(struct Z_counter_instance_t *c, u32 handle) { return (void)c, ask(1, 1, handle, 0); }
u32 Z_counterZ_drop(struct Z_counter_instance_t *c, u32 handle) { return (void)c, ask(2, 1, handle, 0); }
u32 Z_hostZ_clock(struct Z_host_instance_t *h) { return (void)h, ask(3, 0, 0, 0); }
void Z_hostZ_log(struct Z_host_instance_t *h, u32 at, u32 len) { (void)h, ask(4, 2, at, len); }

/* ---- The engine ---- */

static canon_step run(native *it) {
  Z_guest_instance_t *z = &it->instance;
  u32 a = (u32)it->words[0], b = (u32)it->words[1];
  switch (it->func) {
    case 0: return gives(Z_guestZ_words(z, a, b));
    case 1: return gives(Z_guestZ_greet(z, a, b));
    case 2: return gives(Z_guestZ_total(z, a, b));
    case 3: return gives(Z_guestZ_make(z, a));
    case 4: return gives(Z_guestZ_unmake(z, a));
    case 5: return gives(Z_guestZ_same(z, a, b));
    case 6: return gives(Z_guestZ_length(z, a, b));
    case 7: return gives(Z_guestZ_sum(z, a, b));
    case 8: return gives(Z_guestZ_broken(z));
    case 9: return gives(Z_guestZ_crash(z));
    case POST: return Z_guestZ_post(z, a), ends(CANON_RETURNS);
    default: return ends(CANON_TRAPS);
  }
}

static void code_main(void *data) {
  native *it = data;
  jmp_buf out;
  it->out = &out;
  it->step = ends(CANON_TRAPS);
  if (setjmp(out) == 0) it->step = run(it);
  fiber_leave(&it->code);
}

/* Enters the code's stack in this memory, and leaves what ran before as it was. */
static canon_step step_in(native *it, canon_memory *memory, const uint64_t *words, size_t count) {
  native *before = running;
  uint32_t depth = wasm_rt_call_stack_depth;
  memset(it->words, 0, sizeof it->words);
  it->count = count < CANON_MAX_WORDS ? count : CANON_MAX_WORDS;
  memcpy(it->words, words, 8 * it->count);
  it->memory = memory;
  take(&it->instance.w2c_memory, memory);
  running = it;
  wasm_rt_call_stack_depth = 0;
  fiber_enter(&it->code);
  running = before;
  wasm_rt_call_stack_depth = depth;
  return it->step;
}

static canon_step e_start(void *data, canon_memory *memory, uint32_t func, const uint64_t *words, size_t count) {
  native *it = data;
  it->func = func;
  fiber_begin(&it->code, code_main, it);
  return step_in(it, memory, words, count);
}
static canon_step e_resume(void *data, canon_memory *memory, const uint64_t *words, size_t count) {
  return step_in(data, memory, words, count);
}

/* Code that asks for no import needs no stack of its own. */
static canon_step direct(native *it, canon_memory *memory, void (*call)(native *, const uint64_t *), const uint64_t *words) {
  native *before = running;
  uint32_t depth = wasm_rt_call_stack_depth;
  jmp_buf out, *outer = it->out;
  it->memory = memory;
  it->out = &out;
  it->step = ends(CANON_TRAPS);
  take(&it->instance.w2c_memory, memory);
  running = it;
  wasm_rt_call_stack_depth = 0;
  if (setjmp(out) == 0) call(it, words);
  it->out = outer;
  running = before;
  wasm_rt_call_stack_depth = depth;
  return it->step;
}
static void do_realloc(native *it, const uint64_t *w) {
  it->step = gives(Z_guestZ_cabi_realloc(&it->instance, (u32)w[0], (u32)w[1], (u32)w[2], (u32)w[3]));
}
static canon_step e_realloc(void *data, canon_memory *memory, uint64_t old, uint64_t old_size, uint32_t align, uint64_t new_size) {
  uint64_t words[] = {old, old_size, align, new_size};
  return direct(data, memory, do_realloc, words);
}
static void do_instantiate(native *it, const uint64_t *w) {
  (void)w;
  Z_guest_instantiate(&it->instance, NULL, NULL);
  it->step = ends(CANON_RETURNS);
}
static bool e_instantiate(void *data, canon_memory *memory) {
  static bool made;
  if (!made) Z_guest_init_module();
  made = true;
  return direct(data, memory, do_instantiate, NULL).end == CANON_RETURNS;
}
static canon_step e_post_return(void *data, canon_memory *memory, uint32_t func, const uint64_t *words, size_t count) {
  (void)func; /* the module has one for all exports */
  return e_start(data, memory, POST, words, count);
}
static canon_step e_dtor(void *data, canon_memory *memory, uint32_t func, uint32_t rep) {
  (void)data, (void)memory, (void)func, (void)rep; /* a counter has nothing to destroy */
  return ends(CANON_RETURNS);
}

static const canon_engine native_engine = {e_instantiate, e_start, e_resume, e_realloc, e_post_return, e_dtor};
const canon_engine *const demo_engine = &native_engine;

void *demo_engine_new(void) {
  native *it = calloc(1, sizeof *it);
  if (it && !fiber_make(&it->code, STACK)) {
    free(it);
    return NULL;
  }
  return it;
}

void demo_engine_free(void *data) {
  native *it = data;
  if (!it) return;
  fiber_free(&it->code);
  free(it->instance.w2c_T0.data);
  free(it);
}
