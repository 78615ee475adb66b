/* What stands between the library and a C program. The library's `read` and `write` were renamed to the two functions at the end, so what it tells and
 * hears passes through here and no system call is made. docs/ENGINE.md has the messages. */
#define _GNU_SOURCE
#include "../canon.h"

#include "fiber.h"

#include <errno.h>
#include <inttypes.h>
#include <stdatomic.h>
#include <stdio.h>
#include <stdlib.h>
#include <string.h>

/* The export of libcanon_c.a. */
uint32_t canon_serve(int32_t channel);

/* What a message begins with, beside a canon_demand. */
enum { IMPORT = 6, ANSWER };
enum { DEMAND_NUMBERS = 7, REPLY_BYTES = 168, ANSWER_BYTES = 64, MOST_STORES = 1024 };
#define MOST_MEMORY ((size_t)1 << 32)

/* Memory that an engine makes longer goes on in a block of ours. */
typedef struct {
  canon_memory public; /* first */
  uint8_t *block;      /* NULL: memory is as it was lent */
  size_t len, room;
} lent;

/* What passes next. */
typedef enum {
  IDLE,
  MEMORY,        /* a demand was told, and memory is lent next */
  LONGER_MEMORY, /* the reply made memory longer, and it is lent again */
  PARAMS,        /* the parameters of an import are told next */
  RESULTS,       /* the bytes of an answer are told next */
  ANSWERED       /* the next command is wanted */
} phase;

struct canon_store {
  const canon_setup *setup;
  canon_setup kept;
  int32_t channel;
  atomic_flag busy;
  bool over;

  phase phase;
  uint64_t demand[DEMAND_NUMBERS];
  uint64_t words[CANON_MAX_WORDS];
  size_t len; /* of what passes next */
  uint64_t import;
  lent memory;

  /* what is to be heard: a head and what follows it */
  uint8_t head[REPLY_BYTES];
  size_t head_at, head_len;
  const uint8_t *body;
  size_t body_len;
  canon_bytes from_host;

  /* what was answered */
  bool answered, ended;
  uint64_t answer[8];
  canon_bytes *results;

  fiber library;
  canon_next *next; /* of a session */
  void *next_data;
  canon_bytes session_results;
};

/* ---- Bytes ---- */

static bool reserve(canon_bytes *b, size_t more) {
  if (more <= b->room - b->len) return true;
  if (more > SIZE_MAX / 2 - b->len) return false;
  size_t room = b->len + more;
  if (room < 2 * b->room) room = 2 * b->room;
  if (room < 64) room = 64;
  uint8_t *to = realloc(b->bytes, room);
  if (!to) return false;
  b->bytes = to;
  b->room = room;
  return true;
}
bool canon_put(canon_bytes *b, const void *from, size_t len) {
  if (!reserve(b, len)) return false;
  if (len) memcpy(b->bytes + b->len, from, len);
  b->len += len;
  return true;
}
/* The lowest byte first, whatever the machine. */
static bool put_number(canon_bytes *b, uint64_t n, size_t len) {
  uint8_t bytes[8];
  for (size_t i = 0; i < len; i++) bytes[i] = (uint8_t)(n >> (8 * i));
  return canon_put(b, bytes, len);
}
bool canon_put_u8(canon_bytes *b, uint8_t n) { return put_number(b, n, 1); }
bool canon_put_u16(canon_bytes *b, uint16_t n) { return put_number(b, n, 2); }
bool canon_put_u32(canon_bytes *b, uint32_t n) { return put_number(b, n, 4); }
bool canon_put_u64(canon_bytes *b, uint64_t n) { return put_number(b, n, 8); }
bool canon_put_f32(canon_bytes *b, float f) {
  uint32_t n;
  memcpy(&n, &f, 4);
  return canon_put_u32(b, n);
}
bool canon_put_f64(canon_bytes *b, double f) {
  uint64_t n;
  memcpy(&n, &f, 8);
  return canon_put_u64(b, n);
}
bool canon_put_text(canon_bytes *b, const char *utf8, size_t len) { return canon_put_u64(b, len) && canon_put(b, utf8, len); }
void canon_bytes_free(canon_bytes *b) {
  free(b->bytes);
  memset(b, 0, sizeof *b);
}

canon_reader canon_read(const void *bytes, size_t len) {
  canon_reader r = {bytes, len, true};
  return r;
}
static const uint8_t *take(canon_reader *r, uint64_t len) {
  if (!r->ok || len > r->left) {
    r->ok = false;
    return NULL;
  }
  const uint8_t *at = r->at;
  if (len) r->at += len;
  r->left -= (size_t)len;
  return at;
}
static uint64_t get_number(canon_reader *r, size_t len) {
  const uint8_t *at = take(r, len);
  uint64_t n = 0;
  if (at)
    for (size_t i = 0; i < len; i++) n |= (uint64_t)at[i] << (8 * i);
  return n;
}
uint8_t canon_get_u8(canon_reader *r) { return (uint8_t)get_number(r, 1); }
uint16_t canon_get_u16(canon_reader *r) { return (uint16_t)get_number(r, 2); }
uint32_t canon_get_u32(canon_reader *r) { return (uint32_t)get_number(r, 4); }
uint64_t canon_get_u64(canon_reader *r) { return get_number(r, 8); }
float canon_get_f32(canon_reader *r) {
  uint32_t n = canon_get_u32(r);
  float f;
  memcpy(&f, &n, 4);
  return f;
}
double canon_get_f64(canon_reader *r) {
  uint64_t n = canon_get_u64(r);
  double f;
  memcpy(&f, &n, 8);
  return f;
}
const char *canon_get_text(canon_reader *r, size_t *len) {
  uint64_t n = canon_get_u64(r);
  const char *at = (const char *)take(r, n);
  *len = at ? (size_t)n : 0;
  return at ? at : "";
}

bool canon_get_event(canon_reader *r, canon_kept *event) {
  event->kind = canon_get_u64(r);
  for (size_t i = 0; i < 5; i++) event->operands[i] = canon_get_u64(r);
  uint64_t count = canon_get_u64(r), len = canon_get_u64(r);
  const uint8_t *words = take(r, count <= r->left / 8 ? 8 * count : UINT64_MAX), *memory = take(r, len);
  event->words = canon_read(words, words ? (size_t)(8 * count) : 0);
  event->memory = canon_read(memory, memory ? (size_t)len : 0);
  return r->ok;
}

/* ---- Errors ---- */

static const char *const names[] = {
    [CANON_WRONG_COUNT] = "WrongCount", [CANON_ASYNC_LIFTED] = "AsyncLifted", [CANON_CANNOT_ENTER_COMPONENT] = "CannotEnterComponent",
    [CANON_WRONG_WORDS] = "WrongWords", [CANON_UNKNOWN_IMPORT] = "UnknownImport", [CANON_TURNS_EXHAUSTED] = "TurnsExhausted",
    [CANON_HOST_REFUSED] = "HostRefused", [CANON_OUT_OF_MEMORY] = "OutOfMemory", [CANON_TYPE_MISMATCH] = "TypeMismatch",
    [CANON_FIELD_NAME] = "FieldName", [CANON_LENGTH_MISMATCH] = "LengthMismatch", [CANON_UNKNOWN_CASE] = "UnknownCase",
    [CANON_UNKNOWN_FLAG] = "UnknownFlag", [CANON_PAYLOAD_EXPECTED] = "PayloadExpected",
    [CANON_PAYLOAD_NOT_EXPECTED] = "PayloadNotExpected", [CANON_STRING_TOO_LONG] = "StringTooLong", [CANON_SIZE_OVERFLOW] = "SizeOverflow",
    [CANON_REALLOC_MISALIGNED] = "ReallocMisaligned", [CANON_REALLOC_OUT_OF_BOUNDS] = "ReallocOutOfBounds",
    [CANON_GUEST_TRAP] = "GuestTrap", [CANON_POINTER_MISALIGNED] = "PointerMisaligned",
    [CANON_POINTER_OUT_OF_BOUNDS] = "PointerOutOfBounds", [CANON_INVALID_UTF8] = "InvalidUtf8", [CANON_INVALID_UTF16] = "InvalidUtf16",
    [CANON_INVALID_CHAR] = "InvalidChar", [CANON_BAD_DISCRIMINANT] = "BadDiscriminant",
    [CANON_HOSTCALL_FUEL_EXHAUSTED] = "HostcallFuelExhausted", [CANON_UNKNOWN_HANDLE] = "UnknownHandle",
    [CANON_NOT_A_RESOURCE] = "NotAResource", [CANON_RESOURCE_TYPE_MISMATCH] = "ResourceTypeMismatch", [CANON_STILL_LENT] = "StillLent",
    [CANON_TOO_MANY_LENDS] = "TooManyLends", [CANON_HANDLE_LIMIT] = "HandleLimit", [CANON_INDEX_OVERFLOW] = "IndexOverflow",
    [CANON_BORROW_AS_OWN] = "BorrowAsOwn", [CANON_HOST_CONSUMED] = "HostConsumed", [CANON_HOST_DEALLOCATED] = "HostDeallocated",
    [CANON_GENERATION_EXHAUSTED] = "GenerationExhausted", [CANON_BORROWS_REMAIN] = "BorrowsRemain", [CANON_NO_SCOPE] = "NoScope",
    [CANON_LEDGER_OUT_OF_MEMORY] = "OutOfMemory"};
static const char *const reasons[] = {"", "no such command", "no such export", "no image of the parameters", "no such resource", "no component", "too many bytes", "a number of more than 32 bits", "no events are kept"};

const char *canon_error_name(canon_error error) {
  size_t n = (size_t)error;
  return n < sizeof names / sizeof *names && names[n] ? names[n] : "Unknown";
}

void canon_why_text(const canon_why *why, char *to, size_t room) {
  if (why->reason) {
    snprintf(to, room, why->reason == CANON_NO_IMAGE ? "%s @%" PRIu64 : "%s", why->reason <= CANON_NO_EVENTS ? reasons[why->reason] : "", why->place);
    return;
  }
  char import[32] = "", place[32] = "", more[32] = "";
  if (why->in_import) snprintf(import, sizeof import, "ImportFault %" PRIu32 " ", why->import);
  else if (why->error == CANON_UNKNOWN_IMPORT || why->error == CANON_HOST_REFUSED) snprintf(more, sizeof more, " %" PRIu32, why->import);
  static const char *const before[] = {"", " ", " w", " @", " "};
  bool is_block = why->error == CANON_REALLOC_MISALIGNED || why->error == CANON_REALLOC_OUT_OF_BOUNDS;
  if (why->kind >= CANON_AT_VALUE && why->kind <= CANON_COUNT)
    snprintf(place, sizeof place, "%s%" PRIu64, before[is_block ? CANON_COUNT : why->kind], why->place);
  if (why->error == CANON_BAD_DISCRIMINANT || why->error == CANON_UNKNOWN_HANDLE || why->error == CANON_NOT_A_RESOURCE ||
      why->error == CANON_STILL_LENT || why->error == CANON_TOO_MANY_LENDS)
    snprintf(more, sizeof more, " %" PRIu64, why->more);
  snprintf(to, room, "%s%s%s%s", import, canon_error_name(why->error), place, more);
}

/* ---- Steps ---- */

static void put_at(uint8_t *to, size_t place, uint64_t n) {
  for (size_t i = 0; i < 8; i++) to[8 * place + i] = (uint8_t)(n >> (8 * i));
}
static uint64_t number_at(const uint8_t *from, size_t place) {
  uint64_t n = 0;
  for (size_t i = 0; i < 8; i++) n |= (uint64_t)from[8 * place + i] << (8 * i);
  return n;
}

/* Has these bytes heard next, and then a body. */
static void says(canon_store *s, size_t head_len, const uint8_t *body, size_t body_len) {
  s->head_at = 0;
  s->head_len = head_len;
  s->body = body;
  s->body_len = body_len;
}

bool canon_grow(canon_memory *memory, size_t by) {
  lent *it = (lent *)memory;
  if (by == 0) return true;
  if (by > MOST_MEMORY || it->len + by > MOST_MEMORY) return false;
  size_t len = it->len + by;
  if (!it->block || len > it->room) {
    size_t room = it->block && len < 2 * it->len ? 2 * it->len : len;
    uint8_t *to = realloc(it->block, room);
    if (!to) return false;
    if (!it->block) memcpy(to, it->public.bytes, it->len);
    it->block = to;
    it->room = room;
  }
  memset(it->block + it->len, 0, by);
  it->len = len;
  it->public.bytes = it->block;
  it->public.len = len;
  return true;
}

/* A block is told as a number, and not as a word. Without exactly one it is a trap. */
static canon_step one_word(canon_step step, uint64_t *word) {
  if (step.end == CANON_RETURNS && step.count == 1) {
    *word = step.words[0];
    step.count = 0;
  } else if (step.end == CANON_RETURNS) {
    step.end = CANON_TRAPS;
  }
  return step;
}

static void trace(const canon_store *s, const canon_step *step) {
  const uint64_t *d = s->demand;
  const uint64_t block[] = {d[1], d[2], d[3], d[4]};
  canon_event event = {(canon_demand)d[0], (uint32_t)d[1], s->words, (size_t)d[6], step};
  if (event.demand == CANON_REALLOC) event.func = 0, event.words = block, event.count = 4;
  if (event.demand == CANON_DTOR) event.words = block + 1, event.count = 1;
  s->setup->trace(s->setup->trace_data, &event);
}

/* Carries out the demand in memory, and has the reply heard next. */
static void step_in(canon_store *s, uint8_t *bytes, size_t len) {
  const canon_engine *e = s->setup->engine;
  void *data = s->setup->engine_data;
  const uint64_t *d = s->demand;
  size_t count = (size_t)d[6];
  lent *m = &s->memory;
  canon_memory *given = &m->public;
  given->bytes = bytes;
  given->len = m->len = len;
  m->block = NULL;
  canon_step step = {CANON_TRAPS, 0, 0, {0}};
  switch (d[0]) {
    case CANON_START: step = e->start(data, given, (uint32_t)d[1], s->words, count); break;
    case CANON_RESUME: step = e->resume(data, given, s->words, count); break;
    case CANON_REALLOC: step = e->realloc(data, given, d[1], d[2], (uint32_t)d[3], d[4]); break;
    case CANON_POST_RETURN: step = e->post_return(data, given, (uint32_t)d[1], s->words, count); break;
    case CANON_DTOR: step = e->dtor(data, given, (uint32_t)d[1], (uint32_t)d[2]); break;
    case CANON_INSTANTIATE: step.end = e->instantiate(data, given) ? CANON_RETURNS : CANON_TRAPS; break;
  }
  if (step.count > CANON_MAX_WORDS) step.end = CANON_TRAPS, step.count = 0;
  if (s->setup->trace) trace(s, &step);
  uint64_t number = step.end == CANON_ASKS ? step.import : 0;
  if (d[0] == CANON_REALLOC) step = one_word(step, &number);
  memset(s->head, 0, REPLY_BYTES);
  put_at(s->head, 0, (uint64_t)step.end);
  put_at(s->head, 1, number);
  put_at(s->head, 2, m->len - len);
  put_at(s->head, 3, step.count);
  for (size_t i = 0; i < step.count; i++) put_at(s->head, 4 + i, step.words[i]);
  says(s, REPLY_BYTES, NULL, 0);
  s->phase = m->block ? LONGER_MEMORY : IDLE;
}

/* Has a function of the host serve the import, and its answer heard next. */
static void serve_import(canon_store *s, const uint8_t *params, size_t len) {
  const canon_setup *setup = s->setup;
  s->from_host.len = 0;
  bool ok = setup->host && setup->host(setup->host_data, (uint32_t)s->import, params, len, &s->from_host);
  ok = ok && s->from_host.len <= CANON_MAX_BYTES;
  put_at(s->head, 0, ok ? 0 : 1);
  put_at(s->head, 1, ok ? s->from_host.len : 0);
  says(s, 16, s->from_host.bytes, ok ? s->from_host.len : 0);
  s->phase = IDLE;
}

/* ---- Commands ---- */

static canon_status status_of(const canon_store *s, canon_why *why) {
  const uint64_t *a = s->answer;
  memset(why, 0, sizeof *why);
  if (!s->answered) return CANON_OVER;
  if (a[1] == 0) return CANON_OK;
  why->import = (uint32_t)a[3];
  why->kind = (canon_place)a[4];
  why->place = a[5];
  why->more = a[6];
  if (a[1] != 1) {
    why->reason = (canon_reason)a[2];
    return CANON_SENSELESS;
  }
  why->in_import = a[2] > 100;
  why->error = (canon_error)(a[2] > 100 ? a[2] - 100 : a[2]);
  return CANON_REFUSED;
}

/* Has this command heard next. */
static void command(canon_store *s, uint64_t what, uint64_t operand, uint64_t second, const void *bytes, size_t len, canon_bytes *results) {
  put_at(s->head, 0, what);
  put_at(s->head, 1, operand);
  put_at(s->head, 2, second);
  put_at(s->head, 3, len);
  says(s, 32, bytes, len);
  s->answered = false;
  s->results = results;
  s->phase = IDLE;
}

static canon_status too_long(canon_why *why) {
  if (why) why->reason = CANON_TOO_LONG;
  return CANON_SENSELESS;
}

/* Asks a session's program what is next. */
static void ask_next(canon_store *s) {
  canon_answer last = {CANON_OK, {0}, s->session_results.bytes, s->session_results.len};
  canon_command next = {CANON_DO_LIVE, 0, 0, NULL, 0};
  last.status = status_of(s, &last.why);
  while (!(s->ended = !s->next(s->next_data, &last, &next)) && next.what == CANON_DO_CALL && next.len > CANON_MAX_BYTES) {
    memset(&last, 0, sizeof last);
    last.status = too_long(&last.why);
  }
  if (s->ended) command(s, 0, 0, 0, NULL, 0, NULL);
  else command(s, (uint64_t)next.what, next.export_number, next.what == CANON_DO_NEW ? next.rep : 0, next.params, next.what == CANON_DO_CALL ? next.len : 0, &s->session_results);
  s->session_results.len = 0;
}

/* ---- What the library calls ---- */

static _Atomic(canon_store *) stores[MOST_STORES];

static canon_store *store_of(int channel) {
  return channel >= 0 && channel < MOST_STORES ? atomic_load_explicit(&stores[channel], memory_order_acquire) : NULL;
}

static ssize_t told(canon_store *s, const uint8_t *bytes, size_t n) {
  switch (s->phase) {
    case MEMORY:
    case LONGER_MEMORY:
      if (n == s->len) return (ssize_t)n; /* memory may be told before it is heard */
      free(s->memory.block);              /* it isn't wanted */
      s->memory.block = NULL;
      break;
    case PARAMS:
      if (n != s->len) return -1;
      serve_import(s, bytes, n);
      return (ssize_t)n;
    case RESULTS:
      if (n != s->len || (s->results && !canon_put(s->results, bytes, n))) return -1;
      s->answered = true;
      s->phase = ANSWERED;
      return (ssize_t)n;
    default: break;
  }
  if (n < 24) return -1;
  uint64_t what = number_at(bytes, 0);
  if (what <= CANON_INSTANTIATE && n >= 8 * DEMAND_NUMBERS) {
    for (size_t i = 0; i < DEMAND_NUMBERS; i++) s->demand[i] = number_at(bytes, i);
    if (s->demand[6] > CANON_MAX_WORDS || n != 8 * (DEMAND_NUMBERS + s->demand[6])) return -1;
    for (size_t i = 0; i < s->demand[6]; i++) s->words[i] = number_at(bytes, DEMAND_NUMBERS + i);
    s->len = (size_t)s->demand[5];
    s->phase = MEMORY;
  } else if (what == IMPORT && n == 24) {
    s->import = number_at(bytes, 1);
    s->len = (size_t)number_at(bytes, 2);
    if (s->len == 0) serve_import(s, NULL, 0);
    else s->phase = PARAMS;
  } else if (what == ANSWER && n == ANSWER_BYTES) {
    for (size_t i = 0; i < 8; i++) s->answer[i] = number_at(bytes, i);
    s->len = (size_t)s->answer[7];
    if (s->results) s->results->len = 0;
    s->answered = s->len == 0;
    s->phase = s->len ? RESULTS : ANSWERED;
  } else {
    return -1;
  }
  return (ssize_t)n;
}

static ssize_t heard(canon_store *s, uint8_t *to, size_t n) {
  if (s->phase == MEMORY) {
    bool is_memory = n == s->len && s->len > 0;
    if (s->len > 0 && !is_memory) return -1;
    step_in(s, is_memory ? to : s->head, s->len);
    if (is_memory) return (ssize_t)n;
  }
  if (s->phase == ANSWERED) {
    if (s->next) ask_next(s);
    else fiber_leave(&s->library);
  }
  if (s->head_at < s->head_len) {
    size_t left = s->head_len - s->head_at;
    if (n > left) n = left;
    memcpy(to, s->head + s->head_at, n);
    s->head_at += n;
    if (s->phase == LONGER_MEMORY && s->head_at == s->head_len) s->len = s->memory.len;
    return (ssize_t)n;
  }
  if (s->phase == LONGER_MEMORY) {
    if (n != s->memory.len) return -1;
    memcpy(to, s->memory.block, n);
    free(s->memory.block);
    s->memory.block = NULL;
    s->phase = IDLE;
    return (ssize_t)n;
  }
  if (n > s->body_len) n = s->body_len;
  if (n) memcpy(to, s->body, n), s->body += n, s->body_len -= n;
  return (ssize_t)n;
}

ssize_t canon_channel_write(int channel, const void *from, size_t n) {
  canon_store *s = store_of(channel);
  if (!s) return errno = EBADF, -1;
  return n ? told(s, from, n) : 0;
}

ssize_t canon_channel_read(int channel, void *to, size_t n) {
  canon_store *s = store_of(channel);
  if (!s) return errno = EBADF, -1;
  return n ? heard(s, to, n) : 0;
}

/* ---- Stores ---- */

static canon_store *store_for(const canon_setup *setup) {
  canon_store *s = calloc(1, sizeof *s);
  if (!s) return NULL;
  s->kept = *setup;
  s->setup = &s->kept;
  atomic_flag_clear(&s->busy);
  for (int32_t i = 0; i < MOST_STORES; i++) {
    canon_store *none = NULL;
    if (atomic_compare_exchange_strong(&stores[i], &none, s)) {
      s->channel = i;
      return s;
    }
  }
  free(s);
  return NULL;
}

static void end_store(canon_store *s) {
  atomic_store(&stores[s->channel], NULL);
  free(s->memory.block);
  canon_bytes_free(&s->from_host);
  canon_bytes_free(&s->session_results);
  free(s);
}

static void library_main(void *data) {
  canon_store *s = data;
  canon_serve(s->channel);
  s->over = true;
}

/* Has the library carry out the command that is heard next. */
static canon_status carry_out(canon_store *s, canon_why *why) {
  canon_why none;
  if (s->over) return CANON_OVER;
  fiber_enter(&s->library);
  return status_of(s, why ? why : &none);
}

canon_store *canon_store_new(const canon_setup *setup, canon_why *why) {
  if (why) memset(why, 0, sizeof *why);
  if (strlen(setup->component) > CANON_MAX_BYTES) return too_long(why), NULL;
  canon_store *s = store_for(setup);
  if (!s) return NULL;
  if (!fiber_make(&s->library, setup->stack ? setup->stack : CANON_STACK)) {
    end_store(s);
    return NULL;
  }
  fiber_begin(&s->library, library_main, s);
  atomic_flag_test_and_set(&s->busy);
  command(s, 1, setup->watched, setup->events, setup->component, strlen(setup->component), NULL);
  canon_status status = carry_out(s, why);
  s->kept.component = NULL;
  atomic_flag_clear(&s->busy);
  if (status == CANON_OK) return s;
  canon_store_free(s);
  return NULL;
}

static canon_status do_command(canon_store *s, uint64_t what, uint64_t operand, uint64_t second, const void *bytes, size_t len, canon_bytes *results, canon_why *why) {
  if (why) memset(why, 0, sizeof *why);
  if (len > CANON_MAX_BYTES) return too_long(why);
  if (atomic_flag_test_and_set(&s->busy)) return CANON_BUSY;
  command(s, what, operand, second, bytes, len, results);
  canon_status status = carry_out(s, why);
  s->results = NULL;
  atomic_flag_clear(&s->busy);
  return status;
}

canon_status canon_call(canon_store *s, uint32_t export_number, const void *params, size_t len, canon_bytes *results, canon_why *why) {
  return do_command(s, CANON_DO_CALL, export_number, 0, params, len, results, why);
}

canon_status canon_live(canon_store *s, uint64_t *live) {
  canon_bytes bytes = {0};
  canon_status status = do_command(s, CANON_DO_LIVE, 0, 0, NULL, 0, &bytes, NULL);
  canon_reader r = canon_read(bytes.bytes, bytes.len);
  *live = canon_get_u64(&r);
  canon_bytes_free(&bytes);
  return status;
}

canon_status canon_resource_new(canon_store *s, uint32_t type, uint32_t rep, uint32_t *number, canon_why *why) {
  canon_bytes bytes = {0};
  canon_status status = do_command(s, CANON_DO_NEW, type, rep, NULL, 0, &bytes, why);
  canon_reader r = canon_read(bytes.bytes, bytes.len);
  *number = (uint32_t)canon_get_u64(&r);
  canon_bytes_free(&bytes);
  return status;
}

canon_status canon_resource_drop(canon_store *s, uint32_t number, canon_why *why) {
  return do_command(s, CANON_DO_DROP, number, 0, NULL, 0, NULL, why);
}

canon_status canon_marks(canon_store *s, canon_bytes *marks) { return do_command(s, CANON_DO_MARKS, 0, 0, NULL, 0, marks, NULL); }

canon_status canon_events(canon_store *s, canon_bytes *events, canon_why *why) { return do_command(s, CANON_DO_EVENTS, 0, 0, NULL, 0, events, why); }

bool canon_store_free(canon_store *s) {
  if (!s) return true;
  if (atomic_flag_test_and_set(&s->busy)) return false;
  if (!s->over) {
    command(s, 0, 0, 0, NULL, 0, NULL);
    fiber_enter(&s->library);
  }
  fiber_free(&s->library);
  end_store(s);
  return true;
}

size_t canon_stack_used(const canon_store *s) { return fiber_depth(&s->library); }

bool canon_session(const canon_setup *setup, canon_next *next, void *data) {
  canon_store *s = strlen(setup->component) > CANON_MAX_BYTES ? NULL : store_for(setup);
  if (!s) return false;
  s->next = next;
  s->next_data = data;
  command(s, 1, setup->watched, setup->events, setup->component, strlen(setup->component), &s->session_results);
  canon_serve(s->channel);
  bool ended = s->ended;
  if (!ended && s->answered) ask_next(s); /* the library ended by itself: nobody took its last answer */
  end_store(s);
  return ended;
}
