/* Calls what a WebAssembly component exports, from C: the proved host side of the Canonical ABI over an engine that you supply. For C99 and
 * later and C++. Values cross as canonical images (docs/IMAGES.md); docs/ENGINE.md shows a whole program.
 *
 * What an engine answers isn't trusted: each lie is a refused call. What a caller and an engine owe beyond that stands below, with each item,
 * and in bindings/README.md. The program is linked with engine/canon.c and with libcanon_c.a, in which `read` and `write` were renamed to
 * canon_channel_read and canon_channel_write. */
#ifndef CANON_H
#define CANON_H

#include <stdbool.h>
#include <stddef.h>
#include <stdint.h>

#ifdef __cplusplus
extern "C" {
#endif

/* ---- The engine ---- */

/* The component's memory, lent to the engine for one step. It may read and write `len` bytes at `bytes`, and keeps no pointer to them. */
typedef struct {
  uint8_t *bytes;
  size_t len;
} canon_memory;

/* Makes memory longer by so many bytes of zeros, for core code that grows it. False where it can't be; else `bytes` and `len` are those of the
 * longer memory, in which the step goes on. */
bool canon_grow(canon_memory *memory, size_t by);

enum { CANON_MAX_WORDS = 17 };

/* How a step of core code ended. */
typedef enum {
  CANON_RETURNS, /* with `words` */
  CANON_ASKS,    /* for the import of number `import`, with `words`; `resume` goes on with the answer */
  CANON_TRAPS,
  CANON_SHORT /* of memory */
} canon_end;

typedef struct {
  canon_end end;
  uint32_t import;
  uint32_t count; /* how many words there are */
  uint64_t words[CANON_MAX_WORDS];
} canon_step;

/* An engine that executes core code. Each function is called from within a call of the store, with the `data` of that store. It has to return:
 * no jump and no exception crosses it. It doesn't call the store that it serves (such a call answers CANON_BUSY); it may call others. */
typedef struct {
  /* puts the module's data into memory, and starts its instance */
  bool (*instantiate)(void *data, canon_memory *);
  /* runs a core function until it returns, asks or traps */
  canon_step (*start)(void *data, canon_memory *, uint32_t func, const uint64_t *words, size_t count);
  /* goes on after an ask, with the answer's words */
  canon_step (*resume)(void *data, canon_memory *, const uint64_t *words, size_t count);
  /* gives a block: its address is the one word that is returned */
  canon_step (*realloc)(void *data, canon_memory *, uint64_t old, uint64_t old_size, uint32_t align, uint64_t new_size);
  /* runs the post-return function of this number, with the words that were returned */
  canon_step (*post_return)(void *data, canon_memory *, uint32_t func, const uint64_t *words, size_t count);
  /* runs the destructor of this number */
  canon_step (*dtor)(void *data, canon_memory *, uint32_t func, uint32_t rep);
} canon_engine;

/* ---- Bytes and images ---- */

/* Bytes that grow. All zeros is none. */
typedef struct {
  uint8_t *bytes;
  size_t len, room;
} canon_bytes;

/* Each adds at the end, and answers false where memory is short. An image is made of these in a row (docs/IMAGES.md). */
bool canon_put(canon_bytes *, const void *from, size_t len);
bool canon_put_u8(canon_bytes *, uint8_t); /* also a bool, 0 or 1 */
bool canon_put_u16(canon_bytes *, uint16_t);
bool canon_put_u32(canon_bytes *, uint32_t);
bool canon_put_u64(canon_bytes *, uint64_t); /* also the count of a list */
bool canon_put_f32(canon_bytes *, float);
bool canon_put_f64(canon_bytes *, double);
bool canon_put_text(canon_bytes *, const char *utf8, size_t len);
void canon_bytes_free(canon_bytes *);

/* Reads images from the front. Past the end, and after a text that isn't there, `ok` is false and all that is read is zero. */
typedef struct {
  const uint8_t *at;
  size_t left;
  bool ok;
} canon_reader;

canon_reader canon_read(const void *bytes, size_t len);
uint8_t canon_get_u8(canon_reader *);
uint16_t canon_get_u16(canon_reader *);
uint32_t canon_get_u32(canon_reader *);
uint64_t canon_get_u64(canon_reader *);
float canon_get_f32(canon_reader *);
double canon_get_f64(canon_reader *);
/* Where the bytes of a text stand, and how many. They aren't ended by a zero. */
const char *canon_get_text(canon_reader *, size_t *len);

/* ---- A store ---- */

/* What came of a command. */
typedef enum {
  CANON_OK,
  CANON_REFUSED,  /* the call was refused; `why` has the error */
  CANON_SENSELESS, /* nothing was done; `why` has the reason */
  CANON_BUSY,     /* the store is within a call already, and nothing was done */
  CANON_OVER      /* the library ended before it answered, for want of memory; the store can only be freed */
} canon_status;

/* Why a command makes no sense. */
typedef enum {
  CANON_NO_COMMAND = 1,
  CANON_NO_EXPORT,
  CANON_NO_IMAGE, /* the bytes are no image of the parameters */
  CANON_NO_RESOURCE, /* a number among the parameters, or the one that is to be dropped, is of no resource of the store */
  CANON_NO_COMPONENT,
  CANON_TOO_LONG, /* the bytes, by CANON_MAX_BYTES */
  CANON_TOO_WIDE,  /* the type or the representation of a new resource */
  CANON_NO_EVENTS  /* the store keeps none */
} canon_reason;

/* How many bytes parameters, results of a function of the host, or a component may have. */
enum { CANON_MAX_BYTES = 16777216 };

/* Why a call was refused. docs/ENGINE.md and the crate canon_func say when each comes. */
typedef enum {
  CANON_WRONG_COUNT = 1,
  CANON_ASYNC_LIFTED,
  CANON_CANNOT_ENTER_COMPONENT,
  CANON_WRONG_WORDS,
  CANON_UNKNOWN_IMPORT,
  CANON_TURNS_EXHAUSTED,
  CANON_HOST_REFUSED,
  CANON_OUT_OF_MEMORY,
  CANON_TYPE_MISMATCH = 11,
  CANON_FIELD_NAME,
  CANON_LENGTH_MISMATCH,
  CANON_UNKNOWN_CASE,
  CANON_UNKNOWN_FLAG,
  CANON_PAYLOAD_EXPECTED,
  CANON_PAYLOAD_NOT_EXPECTED,
  CANON_STRING_TOO_LONG,
  CANON_SIZE_OVERFLOW,
  CANON_REALLOC_MISALIGNED,
  CANON_REALLOC_OUT_OF_BOUNDS,
  CANON_GUEST_TRAP,
  CANON_POINTER_MISALIGNED,
  CANON_POINTER_OUT_OF_BOUNDS,
  CANON_INVALID_UTF8,
  CANON_INVALID_UTF16,
  CANON_INVALID_CHAR,
  CANON_BAD_DISCRIMINANT,
  CANON_HOSTCALL_FUEL_EXHAUSTED,
  CANON_UNKNOWN_HANDLE = 40,
  CANON_NOT_A_RESOURCE,
  CANON_RESOURCE_TYPE_MISMATCH,
  CANON_STILL_LENT,
  CANON_TOO_MANY_LENDS,
  CANON_HANDLE_LIMIT,
  CANON_INDEX_OVERFLOW,
  CANON_BORROW_AS_OWN,
  CANON_HOST_CONSUMED,
  CANON_HOST_DEALLOCATED,
  CANON_GENERATION_EXHAUSTED,
  CANON_BORROWS_REMAIN,
  CANON_NO_SCOPE,
  CANON_LEDGER_OUT_OF_MEMORY
} canon_error;

/* What the place of an error is. */
typedef enum { CANON_NOWHERE, CANON_AT_VALUE, CANON_AT_WORD, CANON_AT_ADDRESS, CANON_COUNT } canon_place;

typedef struct {
  canon_reason reason; /* of CANON_SENSELESS, else 0 */
  canon_error error;   /* of CANON_REFUSED, else 0 */
  bool in_import;      /* the error is that of an import that wasn't served */
  uint32_t import;     /* which import that was, or which one refused or isn't there */
  canon_place kind;    /* what `place` is */
  uint64_t place;      /* of CANON_NO_IMAGE, how many bytes of the image are well formed */
  uint64_t more;       /* the discriminant that no case has, or the handle that is refused */
} canon_why;

/* The name of an error, as a transcript of `canon` has it. */
const char *canon_error_name(canon_error);
/* Writes the error or the reason with its place as a text that a zero ends, cut to `room` bytes. */
void canon_why_text(const canon_why *, char *to, size_t room);

/* A function of the host that the component imports: reads the image of its parameters, and adds that of its results. False refuses, and the
 * call is refused. It is called as the functions of an engine are. */
typedef bool canon_host(void *data, uint32_t import, const uint8_t *params, size_t len, canon_bytes *results);

/* A step of core code, as it happened: of a `start` and a `resume` the words that it began with, of a `realloc` the old address, the old size, the alignment and the
 * new size, of a `post_return` what was returned, of a `dtor` the representation. */
typedef enum { CANON_START, CANON_RESUME, CANON_REALLOC, CANON_POST_RETURN, CANON_DTOR, CANON_INSTANTIATE } canon_demand;
typedef struct {
  canon_demand demand;
  uint32_t func;
  const uint64_t *words;
  size_t count;
  const canon_step *step; /* what came of it */
} canon_event;

/* Is told each event. It is called as the functions of an engine are. */
typedef void canon_trace(void *data, const canon_event *event);

/* What a store is made of. */
typedef struct {
  const char *component; /* JSON (docs/ENGINE.md) */
  bool watched;          /* whether the answers of `realloc` are tested against all of memory (docs/GUEST.md), which takes time */
  const canon_engine *engine;
  void *engine_data;
  canon_host *host; /* NULL: each import of a function is refused */
  void *host_data;
  canon_trace *trace; /* or NULL */
  void *trace_data;
  size_t stack; /* how many bytes the stack has on which the library, the engine and the host's functions run. 0: CANON_STACK */
  bool events;  /* whether events are kept for canon_events: each start, ask, resume and return takes a copy of memory */
} canon_setup;

enum { CANON_STACK = 8 * 1024 * 1024 };

typedef struct canon_store canon_store;

/* Makes a store. NULL where memory is short, or the component is refused: then `why` says so. All that the setup points to has to stay until the
 * store is freed, but the component's text. `why` may be NULL here and below. */
canon_store *canon_store_new(const canon_setup *, canon_why *why);

/* Calls an export with the image of its parameters. If it answers CANON_OK, `results` is set to the image of the results. */
canon_status canon_call(canon_store *, uint32_t export_number, const void *params, size_t len, canon_bytes *results, canon_why *why);

/* Resources have numbers, in the order in which they are made, handed to functions of the host and answered, from 0 on: a handle in an image is such a number, of 4
 * bytes. A number that was given to a function as an own handle, or was dropped, or was lent to a function of the host, stays one of a resource that is gone. */

/* Makes a resource of the host, of the type of this number and with this representation, and sets `number` to its number. */
canon_status canon_resource_new(canon_store *, uint32_t type, uint32_t rep, uint32_t *number, canon_why *why);

/* Drops the resource of a number. Its destructor runs. */
canon_status canon_resource_drop(canon_store *, uint32_t number, canon_why *why);

/* How many handles live. */
canon_status canon_live(canon_store *, uint64_t *live);

/* Sets `marks` to a byte for each answer of `realloc` since this was asked last: 1 where it was lawful, and 2 more where it was tidy. */
canon_status canon_marks(canon_store *, canon_bytes *marks);

/* Sets `events` to the bytes of the events since this was asked last, where the store keeps them. */
canon_status canon_events(canon_store *, canon_bytes *events, canon_why *why);

/* What an event of canon_events is. What the guest was asked has the number of the demand. */
typedef enum {
  CANON_KEPT_START,
  CANON_KEPT_RESUME,
  CANON_KEPT_REALLOC,
  CANON_KEPT_POST_RETURN,
  CANON_KEPT_DTOR,
  CANON_KEPT_RETURN = 6,
  CANON_KEPT_ASK,
  CANON_KEPT_TRAP,
  CANON_KEPT_TRAP_IN_REALLOC
} canon_kept_kind;

/* An event as it was kept. docs/ENGINE.md says what the operands are. Words have 8 bytes each. */
typedef struct {
  uint64_t kind, operands[5];
  canon_reader words, memory;
} canon_kept;

/* Reads the next event of such bytes. False where there is none. */
bool canon_get_event(canon_reader *, canon_kept *);

/* False within a call of this store, and nothing is done. NULL is freed already. */
bool canon_store_free(canon_store *);

/* How many bytes of its stack a store has used so far, at the deepest. */
size_t canon_stack_used(const canon_store *);

/* ---- The same without a stack of its own ---- */

typedef enum { CANON_DO_CALL = 2, CANON_DO_LIVE, CANON_DO_MARKS, CANON_DO_DROP, CANON_DO_NEW, CANON_DO_EVENTS } canon_what;

typedef struct {
  canon_what what;
  uint32_t export_number; /* of CANON_DO_DROP the resource's number, of CANON_DO_NEW its type */
  uint32_t rep;           /* of CANON_DO_NEW */
  const void *params; /* they have to stay until the next command is asked for */
  size_t len;
} canon_command;

typedef struct {
  canon_status status;
  canon_why why;
  const uint8_t *bytes; /* the image of the results, the 8 bytes of a count or of a new resource's number, marks, or events */
  size_t len;
} canon_answer;

/* Says what came of the last command (at first: of making the store), and asks for the next one. False ends the session. */
typedef bool canon_next(void *data, const canon_answer *last, canon_command *command);

/* Runs a store on the stack of the caller until `next` ends it. False where the library ended first: memory is short, or there is no store, and then `next` was
 * told why. */
bool canon_session(const canon_setup *, canon_next *next, void *data);

#ifdef __cplusplus
}
#endif

#endif
