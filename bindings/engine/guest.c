/* The core module of a component, in C, for wasm32 without any library. It keeps the Canonical ABI by hand: a text comes as an address and a
 * length, and what takes more than one word goes out by the address of a block that holds it. The component's type is in component.h. */
typedef unsigned char u8;
typedef signed char s8;
typedef unsigned int u32;
typedef unsigned long long u64;

#define EXPORT(name) __attribute__((export_name(name)))
#define IMPORT(module, name) __attribute__((import_module(module), import_name(name)))

IMPORT("host", "clock") u32 host_clock(void);
IMPORT("host", "log") void host_log(const u8 *text, u32 len);
IMPORT("counter", "new") u32 counter_new(u32 rep);
IMPORT("counter", "rep") u32 counter_rep(u32 handle);
IMPORT("counter", "drop") u32 counter_drop(u32 handle);

/* The allocator gives blocks one behind the other. Post-return takes all of them back. */
extern u8 __heap_base;
static u32 top;

EXPORT("cabi_realloc") void *cabi_realloc(void *old, u32 old_size, u32 align, u32 size) {
  if (!top) top = (u32)&__heap_base;
  u32 at = (top + align - 1) & -align;
  u32 end = at + size;
  if (end < at) __builtin_trap();
  u32 len = __builtin_wasm_memory_size(0) * 65536u;
  if (end > len && __builtin_wasm_memory_grow(0, (end - len + 65535u) / 65536u) == (u32)-1) __builtin_trap();
  for (u32 i = 0; i < old_size && i < size; i++) ((u8 *)at)[i] = ((u8 *)old)[i];
  top = end;
  return (void *)at;
}

/* What results are returned in. */
static union {
  struct { const void *at; u32 count; } list;
  struct { u64 sum; const u8 *longest; u32 len; } report;
} result;

static const void *give(const void *at, u32 count) {
  result.list.at = at;
  result.list.count = count;
  return &result;
}

/* words: func(text: string) -> list<u32>, the length of each word */
EXPORT("words") const void *words(const u8 *text, u32 len) {
  u32 count = 0;
  for (u32 i = 0; i < len; i++) count += text[i] != ' ' && (i == 0 || text[i - 1] == ' ');
  u32 *list = cabi_realloc(0, 0, 4, count * 4), at = 0, run = 0;
  for (u32 i = 0; i <= len; i++) {
    if (i < len && text[i] != ' ') run++;
    else if (run) list[at++] = run, run = 0;
  }
  return give(list, count);
}

/* greet: func(name: string) -> string, which asks for the time and tells the log */
EXPORT("greet") const void *greet(const u8 *name, u32 len) {
  u32 now = host_clock(), at = 0;
  u8 *text = cabi_realloc(0, 0, 1, len + 16);
  for (const char *s = "Hello "; *s; s++) text[at++] = (u8)*s;
  for (u32 i = 0; i < len; i++) text[at++] = name[i];
  host_log(text, at);
  text[at++] = '@';
  text[at++] = (u8)('0' + now % 10);
  return give(text, at);
}

/* total: func(items: list<record { name: string, count: u32 }>) -> record { sum: u64, longest: string } */
struct item { const u8 *name; u32 len, count; };
EXPORT("total") const void *total(const struct item *items, u32 count) {
  result.report.sum = 0, result.report.len = 0, result.report.longest = 0;
  for (u32 i = 0; i < count; i++) {
    result.report.sum += items[i].count;
    if (items[i].len > result.report.len) result.report.len = items[i].len, result.report.longest = items[i].name;
  }
  return &result;
}

/* The resource counter. Its representation is the number that it counts from, and the module keeps its handles to itself: */
/* make: func(start: u32) -> u32, the index of a new handle */
EXPORT("make") u32 make(u32 start) { return counter_new(start); }
/* unmake: func(handle: u32) -> u32, the representation of a handle that it drops */
EXPORT("unmake") u32 unmake(u32 handle) {
  u32 rep = counter_rep(handle);
  counter_drop(handle);
  return rep;
}

/* same: func(a: u32, b: s8) -> bool; length: func(text: string) -> u32; sum: func(bytes: list<u8>) -> u32 */
EXPORT("same") u32 same(u32 a, u32 b) { return a == b; }
EXPORT("length") u32 length(const u8 *text, u32 len) { return len; }
EXPORT("sum") u32 sum(const u8 *bytes, u32 len) {
  u32 of = 0;
  for (u32 i = 0; i < len; i++) of += bytes[i];
  return of;
}

/* broken: func() -> list<u32>, a lie: 2^32 - 1 numbers at 1024 */
EXPORT("broken") const void *broken(void) { return give((void *)1024, 0xffffffffu); }
/* crash: func() -> u32 traps */
EXPORT("crash") u32 crash(void) { __builtin_trap(); }

/* the post-return function of all that give blocks */
EXPORT("post") void post(const void *at) { top = 0; }
