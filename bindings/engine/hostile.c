/* An engine, a host and a channel that lie. Each lie is told to a store of its own, and the program tests that it is answered by its cause. The library's
 * `read` and `write` are renamed to hostile_read and hostile_write here, so that a lie may also be one of the bytes that pass. */
#define _POSIX_C_SOURCE 200809L
#include "../canon.h"

#include <inttypes.h>
#include <signal.h>
#include <stdio.h>
#include <stdlib.h>
#include <string.h>
#include <sys/types.h>
#include <sys/wait.h>
#include <unistd.h>

ssize_t canon_channel_read(int channel, void *to, size_t n);
ssize_t canon_channel_write(int channel, const void *from, size_t n);

enum { MEMORY = 65536, REPLY = 168, HEAP = 1024, RANDOM = 3000 };

static const char component[] =
    "{\"fuel\": 1000000, \"resources\": [{\"kind\": \"guest\", \"id\": 1}],"
    " \"types\": [{\"list\": \"u32\"}, {\"list\": \"string\"}, {\"enum\": [\"a\", \"b\", \"c\"]}, {\"list\": \"u8\"},"
    "  {\"result\": [\"u32\", \"u64\"]}],"
    " \"funcs\": [{\"params\": [\"string\"], \"results\": [0], \"post\": true},"
    "  {\"params\": [1], \"results\": [\"bool\"]},"
    "  {\"params\": [], \"results\": [\"string\"]},"
    "  {\"params\": [], \"results\": [\"char\"]},"
    "  {\"params\": [], \"results\": [2]},"
    "  {\"params\": [], \"results\": [3]},"
    "  {\"params\": [], \"results\": [4]},"
    "  {\"params\": [], \"results\": []}],"
    " \"imports\": [{\"params\": [\"string\"], \"results\": [\"u32\"], \"answers\": []}, {\"builtin\": \"rep\", \"resource\": 0}]}";
enum { NUMBERS, TEXTS, TEXT, CHAR, CASE, BYTES, RESULT, NOTHING };

typedef enum {
  UNKNOWN_END, ALL_WORDS, TOO_MANY_WORDS, COUNT_OF_ALL_ONES, NO_WORD, UNKNOWN_IMPORT, ASKS_FOR_EVER, ASKS_WITH_TOO_MANY, ASKS_WITH_NO_WORD,
  ASKS_PAST_THE_END, ASKS_FOR_NO_HANDLE, GROWS_TOO_MUCH, GROWS_BY_A_BYTE, MEMORY_SHRINKS, MEMORY_GONE, ALL_ONES, LIST_AT_THE_END, GARBAGE, LIST_OF_ALL,
  NO_UTF8, NO_CHAR, NO_CASE, NO_CASE_IN_MEMORY, TOO_DEAR, SHORT, TRAP_AND_SHORT,
  BLOCK_PAST_THE_END, BLOCK_MISALIGNED, BLOCK_TOO_HIGH, BLOCK_OF_TWO_WORDS, BLOCK_OF_NO_WORD, BLOCK_ASKS, BLOCK_TRAPS, BLOCK_SHORT, BLOCKS_OVERLAP,
  BLOCKS_MOVE, BLOCK_WIPES_MEMORY, BLOCK_IN_LONGER_MEMORY, POST_TRAPS, POST_ASKS, POST_RETURNS,
  NOT_INSTANTIATED, HOST_REFUSES, HOST_SHORT_IMAGE, HOST_LONG_IMAGE, HOST_OTHER_IMAGE, HOST_TOO_MUCH, HOST_CALLS_BACK, ENGINE_CALLS_BACK,
  WIRE_BYTE_BY_BYTE, WIRE_MEMORY_CLOSED, WIRE_REPLY_CLOSED, WIRE_REPLY_CUT, WIRE_OPENS_AGAIN, WIRE_DEMAND_REFUSED, WIRE_ANSWER_REFUSED,
  WIRE_KIND, WIRE_COUNT_18, WIRE_COUNT_ALL_ONES, WIRE_NUMBER, WIRE_GROWN_ALL_ONES, WIRE_GROWN_HUGE, WIRE_IMPORT_LENGTH, WIRE_COMMAND,
  WIRE_COMMAND_LENGTH, WIRE_BEGINS_AGAIN, AT_RANDOM, GROWS_FROM_NOTHING
} lie;

typedef struct {
  lie lie;
  const char *what;
  uint32_t export_number;
  const char *answer; /* of the call */
  const char *after;  /* of a call after it, or NULL */
} test;

static const char shut[] = "CannotEnterComponent";
static const test tests[] = {
    {UNKNOWN_END, "a step ends by 99", NUMBERS, "GuestTrap", shut},
    {ALL_WORDS, "17 words are returned", NUMBERS, "WrongWords", shut},
    {TOO_MANY_WORDS, "it has 18 words", NUMBERS, "GuestTrap", shut},
    {COUNT_OF_ALL_ONES, "it has 2^32 - 1 words", NUMBERS, "GuestTrap", shut},
    {NO_WORD, "no word is returned", NUMBERS, "WrongWords", shut},
    {UNKNOWN_IMPORT, "it asks for an import that isn't there", NUMBERS, "UnknownImport 77", shut},
    {ASKS_FOR_EVER, "it asks for ever", NUMBERS, "TurnsExhausted", shut},
    {ASKS_WITH_TOO_MANY, "it asks with 2^32 - 1 words", NUMBERS, "GuestTrap", shut},
    {ASKS_WITH_NO_WORD, "it asks with no word", NUMBERS, "WrongWords", shut},
    {ASKS_PAST_THE_END, "it asks with a text past the end", NUMBERS, "ImportFault 0 PointerOutOfBounds w0", shut},
    {ASKS_FOR_NO_HANDLE, "it asks what a handle that isn't there stands for", NUMBERS, "ImportFault 1 UnknownHandle 4294967295", shut},
    {GROWS_TOO_MUCH, "memory is grown by 2^40 bytes", NUMBERS, "GuestTrap", shut},
    {GROWS_BY_A_BYTE, "memory is grown by one byte", NUMBERS, "ok 8", "ok 8"},
    {MEMORY_SHRINKS, "memory is said to have one byte", NUMBERS, "ok 8", "ok 8"},
    {MEMORY_GONE, "memory is said to be nowhere", NUMBERS, "ok 8", "ok 8"},
    {ALL_ONES, "2^64 - 1 is returned", NUMBERS, "PointerMisaligned w0", shut},
    {LIST_AT_THE_END, "the list's pointer stands past the end", NUMBERS, "PointerOutOfBounds w0", shut},
    {GARBAGE, "the list's pointer is garbage", NUMBERS, "PointerOutOfBounds @8", shut},
    {LIST_OF_ALL, "a list of 2^32 - 1 numbers at 0", NUMBERS, "PointerOutOfBounds @16", shut},
    {NO_UTF8, "a text is no UTF-8", TEXT, "InvalidUtf8 @16", shut},
    {NO_CHAR, "a surrogate is a character", CHAR, "InvalidChar w0", shut},
    {NO_CASE, "an enum of three has case 7", CASE, "BadDiscriminant w0 7", shut},
    {NO_CASE_IN_MEMORY, "a result is neither ok nor an error", RESULT, "BadDiscriminant @16 255", shut},
    {TOO_DEAR, "a list of all of memory costs more than the fuel", BYTES, "HostcallFuelExhausted", shut},
    {SHORT, "it is out of memory", NUMBERS, "OutOfMemory", shut},
    {TRAP_AND_SHORT, "its block is out of memory, then it traps", NUMBERS, "OutOfMemory", shut},
    {BLOCK_PAST_THE_END, "a block passes the end", NUMBERS, "ReallocOutOfBounds 65533", shut},
    {BLOCK_MISALIGNED, "a block isn't aligned", TEXTS, "ReallocMisaligned 1025", shut},
    {BLOCK_TOO_HIGH, "a block is at 2^40", NUMBERS, "GuestTrap", shut},
    {BLOCK_OF_TWO_WORDS, "a block has two words", NUMBERS, "GuestTrap", shut},
    {BLOCK_OF_NO_WORD, "a block has no word", NUMBERS, "GuestTrap", shut},
    {BLOCK_ASKS, "a block asks for an import", NUMBERS, "GuestTrap", shut},
    {BLOCK_TRAPS, "a block traps", NUMBERS, "GuestTrap", shut},
    {BLOCK_SHORT, "a block is out of memory", NUMBERS, "OutOfMemory", shut},
    {BLOCKS_OVERLAP, "all blocks are one", TEXTS, "ok 1, marks 1000", "ok 1, marks 1000"},
    {BLOCKS_MOVE, "each block lies before the last one", TEXTS, "ok 1, marks 1111", "ok 1, marks 1111"},
    {BLOCK_WIPES_MEMORY, "each block wipes all that was written", TEXTS, "ok 1, marks 1100", "ok 1, marks 1100"},
    {BLOCK_IN_LONGER_MEMORY, "each block is in memory that just grew", TEXTS, "ok 1, marks 1111", "ok 1, marks 1111"},
    {POST_TRAPS, "post-return traps", NUMBERS, "GuestTrap", shut},
    {POST_ASKS, "post-return asks", NUMBERS, "GuestTrap", shut},
    {POST_RETURNS, "post-return returns words", NUMBERS, "ok 8", "ok 8"},
    {NOT_INSTANTIATED, "the module isn't instantiated", NUMBERS, "no store: GuestTrap", NULL},
    {HOST_REFUSES, "the host refuses", NUMBERS, "HostRefused 0", shut},
    {HOST_SHORT_IMAGE, "the host's image is cut", NUMBERS, "HostRefused 0", shut},
    {HOST_LONG_IMAGE, "more follows the host's image", NUMBERS, "HostRefused 0", shut},
    {HOST_OTHER_IMAGE, "the host's image is that of a text", NUMBERS, "HostRefused 0", shut},
    {HOST_TOO_MUCH, "the host's image has 16,777,217 bytes", NUMBERS, "HostRefused 0", shut},
    {HOST_CALLS_BACK, "the host calls the store that it serves", NUMBERS, "ok 8", "ok 8"},
    {ENGINE_CALLS_BACK, "the engine calls the store that it serves", NUMBERS, "ok 8", "ok 8"},
    {WIRE_BYTE_BY_BYTE, "what is heard comes byte by byte", NUMBERS, "ok 8", "ok 8"},
    {WIRE_MEMORY_CLOSED, "the channel ends where memory is lent", NOTHING, "GuestTrap", shut},
    {WIRE_REPLY_CLOSED, "the channel ends before the reply", NOTHING, "GuestTrap", shut},
    {WIRE_REPLY_CUT, "the channel ends within the reply", NOTHING, "GuestTrap", shut},
    {WIRE_OPENS_AGAIN, "an answer after the channel ended", NOTHING, "GuestTrap", shut},
    {WIRE_DEMAND_REFUSED, "the channel takes no demand", NOTHING, "GuestTrap", shut},
    {WIRE_ANSWER_REFUSED, "the channel takes no answer", NOTHING, "over", "over"},
    {WIRE_KIND, "a reply of kind 2^64 - 1", NOTHING, "GuestTrap", shut},
    {WIRE_COUNT_18, "a reply of 18 words", NOTHING, "GuestTrap", shut},
    {WIRE_COUNT_ALL_ONES, "a reply of 2^64 - 1 words", NOTHING, "GuestTrap", shut},
    {WIRE_NUMBER, "a reply that asks for import 2^32", NOTHING, "GuestTrap", shut},
    {WIRE_GROWN_ALL_ONES, "a reply that makes memory longer by 2^64 - 1", NOTHING, "GuestTrap", shut},
    {WIRE_GROWN_HUGE, "a reply that makes memory longer by 2^40", NOTHING, "GuestTrap", shut},
    {WIRE_IMPORT_LENGTH, "an answer of the host of 2^64 - 1 bytes", NUMBERS, "HostRefused 0", shut},
    {WIRE_COMMAND, "a command that isn't there", NOTHING, "no such command", "ok"},
    {WIRE_COMMAND_LENGTH, "a command of 2^64 - 1 bytes", NOTHING, "over", "over"},
    {WIRE_BEGINS_AGAIN, "a session that begins twice", NOTHING, "no such command", "ok"},
};

static lie told;      /* the lie of this store */
static bool lying;    /* whether the store was made */
static bool happened; /* a lie that is told once was told */
static uint32_t heap;
static int busy;
static canon_store *store;

/* ---- Lies at random ---- */

static uint64_t seed;

/* A number below n. */
static uint64_t any(uint64_t n) {
  seed ^= seed << 13, seed ^= seed >> 7, seed ^= seed << 17;
  return seed * UINT64_C(0x2545f4914f6cdd1d) % n;
}

/* A word, often one at the edge of something. */
static uint64_t any_word(const canon_memory *m) {
  const uint64_t edges[] = {0, 1, 8, 24, 1024, m->len - 8, m->len - 1, m->len, UINT32_MAX, (uint64_t)1 << 32, UINT64_MAX};
  return any(2) ? edges[any(11)] : any(any(2) ? 4096 : UINT64_MAX);
}

static canon_step any_step(canon_memory *m) {
  for (uint64_t n = any(8); n > 0; n--) {
    uint32_t word = (uint32_t)any_word(m);
    memcpy(m->bytes + any(any(2) ? 2048 : m->len - 4), &word, 4);
  }
  if (any(16) == 0) canon_grow(m, any(2) ? 65536 : any(65536));
  canon_step s = {any(4) ? CANON_RETURNS : any(4) ? CANON_ASKS : (canon_end)any(6), (uint32_t)any(4), (uint32_t)any(3), {0}};
  if (any(64) == 0) s.count = (uint32_t)any(UINT32_MAX);
  for (int i = 0; i < CANON_MAX_WORDS; i++) s.words[i] = any_word(m);
  return s;
}

/* ---- An engine that lies in what it answers ---- */

static canon_step gives(canon_end end, uint32_t count, uint64_t word) {
  canon_step step = {end, 0, count, {word}};
  return step;
}
static void put32(canon_memory *m, size_t at, uint32_t n) {
  if (at + 4 <= m->len) memcpy(m->bytes + at, &n, 4);
}

static bool h_instantiate(void *d, canon_memory *m) {
  (void)d;
  memset(m->bytes, 0xff, m->len);
  return told != NOT_INSTANTIATED;
}

static canon_step h_start(void *d, canon_memory *m, uint32_t func, const uint64_t *words, size_t count) {
  (void)d, (void)words, (void)count;
  if (told == AT_RANDOM) return any_step(m);
  put32(m, 24, 0), put32(m, 28, 0); /* at 24: a list of none */
  canon_step s = gives(CANON_RETURNS, 1, 24);
  if (func == TEXTS) s.words[0] = 1;
  if (func == NOTHING) s.count = 0;
  switch (told) {
    case UNKNOWN_END: s.end = (canon_end)99; break;
    case ALL_WORDS: s.count = CANON_MAX_WORDS; break;
    case TOO_MANY_WORDS: s.count = CANON_MAX_WORDS + 1; break;
    case COUNT_OF_ALL_ONES: s.count = UINT32_MAX; break;
    case NO_WORD: s.count = 0; break;
    case UNKNOWN_IMPORT: s = gives(CANON_ASKS, 0, 0), s.import = 77; break;
    case ASKS_FOR_EVER: s = gives(CANON_ASKS, 2, 24), s.words[1] = 4; break;
    case ASKS_WITH_TOO_MANY: s = gives(CANON_ASKS, UINT32_MAX, 0); break;
    case ASKS_WITH_NO_WORD: s = gives(CANON_ASKS, 0, 0); break;
    case ASKS_PAST_THE_END: s = gives(CANON_ASKS, 2, MEMORY - 3), s.words[1] = 4; break;
    case ASKS_FOR_NO_HANDLE: s = gives(CANON_ASKS, 1, UINT32_MAX), s.import = 1; break;
    case GROWS_TOO_MUCH: s = gives(canon_grow(m, (size_t)1 << 40) ? CANON_RETURNS : CANON_TRAPS, 1, 24); break;
    case GROWS_FROM_NOTHING: s = gives(m->len == 0 && canon_grow(m, 65536) ? CANON_RETURNS : CANON_TRAPS, 1, 24); break;
    case GROWS_BY_A_BYTE: s = gives(canon_grow(m, 1) ? CANON_RETURNS : CANON_TRAPS, 1, 24); break;
    case MEMORY_SHRINKS: m->len = 1; break;
    case MEMORY_GONE: m->len = 0, m->bytes = NULL; break;
    case ALL_ONES: s.words[0] = UINT64_MAX; break;
    case LIST_AT_THE_END: s.words[0] = m->len - 4; break;
    case GARBAGE: s.words[0] = 8; break;
    case LIST_OF_ALL: put32(m, 16, 0), put32(m, 20, UINT32_MAX), s.words[0] = 16; break;
    case NO_UTF8: put32(m, 16, 40), put32(m, 20, 3), s.words[0] = 16; break;
    case NO_CHAR: s.words[0] = 0xd800; break;
    case NO_CASE: s.words[0] = 7; break;
    case NO_CASE_IN_MEMORY: s.words[0] = 16; break;
    case TOO_DEAR: put32(m, 16, 0), put32(m, 20, (uint32_t)m->len), s.words[0] = 16; break;
    case SHORT: s.end = CANON_SHORT; break;
    case TRAP_AND_SHORT: s.end = CANON_TRAPS; break;
    case HOST_REFUSES: case HOST_SHORT_IMAGE: case HOST_LONG_IMAGE: case HOST_OTHER_IMAGE: case HOST_TOO_MUCH: case HOST_CALLS_BACK: case WIRE_IMPORT_LENGTH:
      s = gives(CANON_ASKS, 2, 24), s.words[1] = 0; break;
    case ENGINE_CALLS_BACK: {
      uint64_t live;
      busy += canon_live(store, &live) == CANON_BUSY && !canon_store_free(store);
      break;
    }
    case WIRE_NUMBER: s = gives(CANON_ASKS, 0, 0); break;
    default: break;
  }
  return s;
}

static canon_step h_resume(void *d, canon_memory *m, const uint64_t *words, size_t count) {
  if (told == HOST_CALLS_BACK) return gives(CANON_RETURNS, 1, 24);
  return h_start(d, m, NUMBERS, words, count);
}

static canon_step h_realloc(void *d, canon_memory *m, uint64_t old, uint64_t old_size, uint32_t align, uint64_t size) {
  (void)d, (void)old, (void)old_size;
  uint32_t at = (heap + align - 1) / align * align;
  canon_step s = gives(CANON_RETURNS, 1, at);
  heap = at + (uint32_t)size;
  if (told == AT_RANDOM && any(8) == 0) return any_step(m);
  switch (told) {
    case BLOCK_PAST_THE_END: s.words[0] = m->len - 3; break;
    case BLOCK_MISALIGNED: s.words[0] = 1025; break;
    case BLOCK_TOO_HIGH: s.words[0] = (uint64_t)1 << 40; break;
    case BLOCK_OF_TWO_WORDS: s.count = 2; break;
    case BLOCK_OF_NO_WORD: s.count = 0; break;
    case BLOCK_ASKS: s = gives(CANON_ASKS, 0, 0); break;
    case BLOCK_TRAPS: s.end = CANON_TRAPS; break;
    case BLOCK_SHORT: case TRAP_AND_SHORT: s.end = CANON_SHORT; break;
    case BLOCKS_OVERLAP: s.words[0] = HEAP; break;
    case BLOCKS_MOVE: s.words[0] = (MEMORY - 64 * ++busy) / 8 * 8; break;
    case BLOCK_WIPES_MEMORY: memset(m->bytes, 0, m->len); break;
    case BLOCK_IN_LONGER_MEMORY: s.words[0] = m->len; if (!canon_grow(m, 65536)) s.end = CANON_SHORT; break;
    default: break;
  }
  return s;
}

static canon_step h_post(void *d, canon_memory *m, uint32_t func, const uint64_t *words, size_t count) {
  (void)d, (void)m, (void)func, (void)words, (void)count;
  if (told == AT_RANDOM) return any_step(m);
  if (told == POST_TRAPS) return gives(CANON_TRAPS, 0, 0);
  if (told == POST_ASKS) return gives(CANON_ASKS, 0, 0);
  if (told == POST_RETURNS) return gives(CANON_RETURNS, 5, 7);
  return gives(CANON_RETURNS, 0, 0);
}
static canon_step h_dtor(void *d, canon_memory *m, uint32_t func, uint32_t rep) { return (void)d, (void)m, (void)func, (void)rep, gives(CANON_TRAPS, 0, 0); }
static const canon_engine engine = {h_instantiate, h_start, h_resume, h_realloc, h_post, h_dtor};

static bool host(void *d, uint32_t import, const uint8_t *params, size_t len, canon_bytes *results) {
  (void)d, (void)import, (void)params, (void)len;
  uint64_t live;
  switch (told) {
    case AT_RANDOM:
      for (uint64_t n = any(2) ? 4 : any(12); n > 0; n--) canon_put_u8(results, (uint8_t)any(256));
      return any(8) != 0;
    case HOST_REFUSES: return false;
    case HOST_SHORT_IMAGE: return canon_put_u16(results, 1);
    case HOST_LONG_IMAGE: return canon_put_u64(results, 1);
    case HOST_OTHER_IMAGE: return canon_put_text(results, "no number", 9);
    case HOST_TOO_MUCH: {
      static const uint8_t zeros[16777217];
      return canon_put(results, zeros, sizeof zeros);
    }
    case HOST_CALLS_BACK: busy += canon_live(store, &live) == CANON_BUSY; break;
    default: break;
  }
  return canon_put_u32(results, 1);
}

/* ---- A channel that lies in what passes ---- */

static void set(uint8_t *bytes, size_t place, uint64_t n) { memcpy(bytes + 8 * place, &n, 8); }

ssize_t hostile_write(int channel, const void *from, size_t n) {
  uint64_t what = 99;
  if (n >= 8) memcpy(&what, from, 8);
  if (lying && told == WIRE_DEMAND_REFUSED && what == 0) return -1;
  if (lying && told == WIRE_ANSWER_REFUSED && what == 7) return -1;
  return canon_channel_write(channel, from, n);
}

ssize_t hostile_read(int channel, void *to, size_t n) {
  bool is_memory = n >= MEMORY, is_reply = n == REPLY, is_command = n == 32, first = !happened;
  if (told == WIRE_BYTE_BY_BYTE && !is_memory && n > 1) n = 1;
  if (lying && told == WIRE_MEMORY_CLOSED && is_memory) return 0;
  if (lying && is_reply && (told == WIRE_REPLY_CLOSED || (told == WIRE_OPENS_AGAIN && first))) return happened = true, 0;
  if (lying && told == WIRE_REPLY_CUT && is_reply && first) return happened = true, canon_channel_read(channel, to, 100);
  if (lying && told == WIRE_REPLY_CUT && n == REPLY - 100) return 0;
  ssize_t got = canon_channel_read(channel, to, n);
  if (lying && told == AT_RANDOM && got > 0 && n <= REPLY && any(64) == 0) {
    if (any(8) == 0) return (ssize_t)any(2) - 1;
    ((uint8_t *)to)[any((uint64_t)got)] ^= (uint8_t)(1 << any(8));
    return any(2) ? got : 1 + (ssize_t)any((uint64_t)got);
  }
  if (!lying || got != (ssize_t)n) return got;
  if (is_reply) {
    if (told == WIRE_KIND) set(to, 0, UINT64_MAX);
    if (told == WIRE_COUNT_18) set(to, 3, 18);
    if (told == WIRE_COUNT_ALL_ONES) set(to, 3, UINT64_MAX);
    if (told == WIRE_NUMBER) set(to, 1, (uint64_t)1 << 32);
    if (told == WIRE_GROWN_ALL_ONES) set(to, 2, UINT64_MAX);
    if (told == WIRE_GROWN_HUGE) set(to, 2, (uint64_t)1 << 40);
  }
  if (n == 16 && told == WIRE_IMPORT_LENGTH) set(to, 1, UINT64_MAX);
  if (is_command && first && (told == WIRE_COMMAND || told == WIRE_COMMAND_LENGTH || told == WIRE_BEGINS_AGAIN)) {
    happened = true;
    if (told == WIRE_COMMAND) set(to, 0, 99);
    if (told == WIRE_COMMAND_LENGTH) set(to, 3, UINT64_MAX);
    if (told == WIRE_BEGINS_AGAIN) set(to, 0, 1);
  }
  return got;
}

/* ---- The tests ---- */

static void call(uint32_t export_number, char *text, size_t room) {
  canon_bytes params = {0}, results = {0}, marks = {0};
  canon_why why;
  heap = HEAP;
  if (export_number == NUMBERS) canon_put_text(&params, "text", 4);
  if (export_number == TEXTS) {
    canon_put_u64(&params, 3);
    for (int i = 0; i < 3; i++) canon_put_text(&params, "text", 4);
  }
  canon_status status = canon_call(store, export_number, params.bytes, params.len, &results, &why);
  if (status == CANON_OVER) snprintf(text, room, "over");
  else if (status != CANON_OK) canon_why_text(&why, text, room);
  else if (export_number == NOTHING) snprintf(text, room, "ok");
  else snprintf(text, room, "ok %zu", results.len);
  if (status == CANON_OK && export_number == TEXTS && canon_marks(store, &marks) == CANON_OK) {
    size_t len = strlen(text);
    len += (size_t)snprintf(text + len, room - len, ", marks ");
    for (size_t i = 0; i < marks.len && len + 2 < room; i++) text[len++] = '0' + (marks.bytes[i] & 1), text[len] = 0;
  }
  canon_bytes_free(&params), canon_bytes_free(&results), canon_bytes_free(&marks);
}

static bool is(const test *t, const char *when, const char *found, const char *wanted) {
  if (strcmp(found, wanted) == 0) return true;
  printf("%s: %s: %s, and not %s\n", t->what, when, found, wanted);
  return false;
}

static bool passes(const test *t) {
  canon_setup setup = {component, false, &engine, NULL, host, NULL, NULL, NULL, 0, false};
  char text[128], after[128];
  canon_why why;
  told = t->lie, lying = happened = false, busy = 0;
  store = canon_store_new(&setup, &why);
  if (!store) {
    int n = snprintf(text, sizeof text, "no store: ");
    canon_why_text(&why, text + n, sizeof text - (size_t)n);
    return is(t, "first", text, t->answer);
  }
  lying = true;
  call(t->export_number, text, sizeof text);
  busy = told == BLOCKS_MOVE ? 0 : busy;
  call(t->export_number, after, sizeof after);
  bool ok = is(t, "first", text, t->answer) & is(t, "then", after, t->after);
  if ((told == HOST_CALLS_BACK || told == ENGINE_CALLS_BACK) && busy != 2) ok = printf("%s: not refused\n", t->what) < 0;
  lying = false;
  if (!canon_store_free(store)) ok = printf("%s: not freed\n", t->what) < 0;
  return ok;
}

/* A store whose engine, host and channel lie at random. */
static void try_at_random(uint64_t from) {
  canon_setup setup = {component, from % 2 == 0, &engine, NULL, host, NULL, NULL, NULL, 0, false};
  char text[128];
  seed = from * UINT64_C(0x9e3779b97f4a7c15) + 1;
  told = AT_RANDOM, lying = false, heap = HEAP;
  if (!(store = canon_store_new(&setup, NULL))) return;
  lying = true;
  for (int i = 0; i < 6; i++) call((uint32_t)any(9), text, sizeof text);
  lying = false;
  canon_store_free(store);
}

/* A memory without bytes, which then grows. */
static bool from_nothing(void) {
  static const char small[] = "{\"memory\": 0, \"heap\": 0, \"funcs\": [{\"params\": [], \"results\": [\"string\"]}]}";
  canon_setup setup = {small, false, &engine, NULL, NULL, NULL, NULL, NULL, 0, false};
  canon_bytes results = {0};
  told = GROWS_FROM_NOTHING, lying = false;
  if (!(store = canon_store_new(&setup, NULL))) return false;
  bool ok = canon_call(store, 0, NULL, 0, &results, NULL) == CANON_OK && results.len == 8;
  canon_bytes_free(&results);
  return canon_store_free(store) && ok;
}

/* A stack that is too small ends the program at its guard page. */
static bool stops_at_its_guard(void) {
  pid_t child = fork();
  if (child == 0) {
    canon_setup setup = {component, false, &engine, NULL, NULL, NULL, NULL, NULL, 16384, false};
    signal(SIGSEGV, SIG_DFL);
    told = UNKNOWN_END;
    canon_store_new(&setup, NULL);
    _exit(0);
  }
  int status = 0;
  return child > 0 && waitpid(child, &status, 0) == child && WIFSIGNALED(status) && WTERMSIG(status) == SIGSEGV;
}

int main(void) {
  size_t count = sizeof tests / sizeof *tests, passed = 0;
  for (size_t i = 0; i < count; i++) passed += passes(&tests[i]);
  printf("%zu lies, %zu answered by their cause\n", count, passed);
  fflush(stdout);
  printf("memory that was empty: %s\n", from_nothing() ? "grows" : "wrong");
  printf("a stack of 16 KiB: %s\n", stops_at_its_guard() ? "stops at its guard page" : "wrong");
  fflush(stdout);
  for (uint64_t i = 1; i <= RANDOM; i++) try_at_random(i);
  printf("%d stores at random, each was answered\n", RANDOM);
  return passed == count ? 0 : 1;
}
