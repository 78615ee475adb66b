/* The text conversions of the Canonical ABI, as crates/canon_text proves them. README.md says what a
 * caller owes. Units are uint16_t for UTF-16 and bytes else; in a compact text a unit of UTF-16 is two
 * bytes, the low one first. What lies in dst behind what was written stays. */
#ifndef CANON_TEXT_H
#define CANON_TEXT_H

#include <stdbool.h>
#include <stddef.h>
#include <stdint.h>

#ifdef __cplusplus
extern "C" {
#endif

/* The bit of a compact length that says UTF-16. */
#define CANON_UTF16_TAG (UINT64_C(1) << 31)

/* A number, or the place of the source's first fault in units. */
typedef struct {
  bool ok;
  uint64_t number; /* what the call answers, 0 if that is nothing, or the place */
} canon_answer;

/* How far a pass came, in units of the source and of the destination. */
typedef struct {
  uint64_t src_read;
  uint64_t dst_written;
} canon_sizes;

/* The same, or the source's first fault, whose place is src_read; dst_written is 0 then. */
typedef struct {
  bool ok;
  uint64_t src_read;
  uint64_t dst_written;
} canon_pass;

/* dst_len == src_len. A refusal leaves dst as it was. */
canon_answer canon_utf8_to_utf8(const uint8_t *src, size_t src_len, uint8_t *dst, size_t dst_len);

/* dst_len == src_len. A refusal has copied the units before its place. */
canon_answer canon_utf16_to_utf16(const uint16_t *src, size_t src_len, uint16_t *dst, size_t dst_len);

/* dst_len == src_len. */
void canon_latin1_to_latin1(const uint8_t *src, size_t src_len, uint8_t *dst, size_t dst_len);

/* dst_len == src_len. One unit for each byte. */
void canon_latin1_to_utf16(const uint8_t *src, size_t src_len, uint16_t *dst, size_t dst_len);

/* dst_len >= src_len. Answers the units written; a refusal leaves dst as it was. */
canon_answer canon_utf8_to_utf16(const uint8_t *src, size_t src_len, uint16_t *dst, size_t dst_len);

/* A pass: it stops where a character doesn't fit, and a first pass above U+007F too. A refusal has
 * written the spelling of all before its place. */
canon_pass canon_utf16_to_utf8(const uint16_t *src, size_t src_len, uint8_t *dst, size_t dst_len,
                               bool first_pass);

/* A pass, as above; every source is well-formed. */
canon_sizes canon_latin1_to_utf8(const uint8_t *src, size_t src_len, uint8_t *dst, size_t dst_len,
                                 bool first_pass);

/* dst_len >= src_len. Reads up to the first byte that begins no character up to U+00FF. */
canon_sizes canon_utf8_to_latin1(const uint8_t *src, size_t src_len, uint8_t *dst, size_t dst_len);

/* dst_len >= src_len. Reads up to the first unit above 255. */
canon_sizes canon_utf16_to_latin1(const uint16_t *src, size_t src_len, uint8_t *dst, size_t dst_len);

/* dst_len == 2 * src_len, src_len < 2^31. Writes UTF-16, and where all is Latin-1 makes the first half
 * of it that. Answers the bytes of Latin-1, or the units with CANON_UTF16_TAG. A refusal has written
 * the units before its place. */
canon_answer canon_utf16_to_compact_probably_utf16(const uint16_t *src, size_t src_len, uint8_t *dst,
                                                   size_t dst_len);

/* dst_len is even and at least 2 * (latin1_bytes_so_far + src_len). Makes the first bytes UTF-16 in
 * place, writes the source behind them, and answers all units. A refusal leaves the bytes behind the
 * first part as they were. */
canon_answer canon_utf8_to_compact_utf16(const uint8_t *src, size_t src_len, uint8_t *dst,
                                         size_t dst_len, uint64_t latin1_bytes_so_far);

/* The same from UTF-16. A refusal has copied the units before its place. */
canon_answer canon_utf16_to_compact_utf16(const uint16_t *src, size_t src_len, uint8_t *dst,
                                          size_t dst_len, uint64_t latin1_bytes_so_far);

/* dst_len >= 2 * latin1_bytes_so_far. Makes units of the first bytes, in place. */
void canon_inflate_latin1_bytes(uint8_t *dst, size_t dst_len, uint64_t latin1_bytes_so_far);

#ifdef __cplusplus
}
#endif

#endif
