/* A function on a stack of its own, which goes on where it left off each time that it is entered. Below the stack lies a page that nothing may
 * touch, so a stack that is too small ends the program and overwrites nothing. */
#ifndef CANON_FIBER_H
#define CANON_FIBER_H

#include <stdbool.h>
#include <stddef.h>
#include <stdint.h>
#include <sys/mman.h>
#include <ucontext.h>
#include <unistd.h>

#if defined(__SANITIZE_ADDRESS__)
#define FIBER_SANITIZED 1
#elif defined(__has_feature)
#if __has_feature(address_sanitizer)
#define FIBER_SANITIZED 1
#endif
#endif
#ifdef FIBER_SANITIZED
#include <sanitizer/common_interface_defs.h>
#endif

typedef struct {
  ucontext_t inside, outside;
  uint8_t *pages; /* the guard page, then the stack */
  size_t guard, size;
  void (*run)(void *);
  void *with;
  /* what the sanitizer keeps of the two stacks */
  void *fake_inside, *fake_outside;
  const void *outer;
  size_t outer_size;
} fiber;

/* Tells the sanitizer that the stack at `to` is entered, or with no `kept` that this one is left for good. */
static inline void fiber_before(void **kept, const void *to, size_t size) {
#ifdef FIBER_SANITIZED
  __sanitizer_start_switch_fiber(kept, to, size);
#else
  (void)kept, (void)to, (void)size;
#endif
}

static inline void fiber_after(void *kept, const void **from, size_t *size) {
#ifdef FIBER_SANITIZED
  __sanitizer_finish_switch_fiber(kept, from, size);
#else
  (void)kept, (void)from, (void)size;
#endif
}

/* Runs the fiber until it leaves or ends. */
static inline void fiber_enter(fiber *f) {
  fiber_before(&f->fake_outside, f->pages + f->guard, f->size);
  swapcontext(&f->outside, &f->inside);
  fiber_after(f->fake_outside, NULL, NULL);
}

/* Goes back to where the fiber was entered, until it is entered again. */
static inline void fiber_leave(fiber *f) {
  fiber_before(&f->fake_inside, f->outer, f->outer_size);
  swapcontext(&f->inside, &f->outside);
  fiber_after(f->fake_inside, &f->outer, &f->outer_size);
}

static inline void fiber_main(unsigned high, unsigned low) {
  fiber *f = (fiber *)(((uintptr_t)high << 16 << 16) | low);
  fiber_after(NULL, &f->outer, &f->outer_size);
  f->run(f->with);
  fiber_before(NULL, f->outer, f->outer_size);
  setcontext(&f->outside);
}

/* Has the next entry begin at the head of `run`. */
static inline void fiber_begin(fiber *f, void (*run)(void *), void *with) {
  f->run = run;
  f->with = with;
  getcontext(&f->inside);
  f->inside.uc_stack.ss_sp = f->pages + f->guard;
  f->inside.uc_stack.ss_size = f->size;
  f->inside.uc_link = NULL;
  makecontext(&f->inside, (void (*)(void))fiber_main, 2, (unsigned)((uintptr_t)f >> 16 >> 16), (unsigned)(uintptr_t)f);
}

/* Makes a stack of at least so many bytes. */
static inline bool fiber_make(fiber *f, size_t size) {
  f->guard = (size_t)sysconf(_SC_PAGESIZE);
  f->size = (size + f->guard - 1) / f->guard * f->guard;
  void *pages = mmap(NULL, f->guard + f->size, PROT_READ | PROT_WRITE, MAP_PRIVATE | MAP_ANONYMOUS | MAP_NORESERVE, -1, 0);
  if (pages == MAP_FAILED) return false;
  f->pages = (uint8_t *)pages;
  return mprotect(pages, f->guard, PROT_NONE) == 0 || (munmap(pages, f->guard + f->size), false);
}

static inline void fiber_free(fiber *f) { munmap(f->pages, f->guard + f->size); }

/* How many bytes of the stack were ever written to, to a byte or so. */
static inline size_t fiber_depth(const fiber *f) {
  const uint8_t *stack = f->pages + f->guard;
  size_t clean = 0;
  while (clean < f->size && stack[clean] == 0) clean++;
  return f->size - clean;
}

#endif
