/* A text in UTF-8 goes to UTF-16 and back in passes; a lone surrogate is refused at its place. */
#include "canon_text.h"

#include <inttypes.h>
#include <stdio.h>
#include <string.h>

int main(void) {
  const char text[] = "na\xC3\xAFve \xE4\xB8\xAD";
  const size_t len = sizeof text - 1;
  uint16_t units[sizeof text - 1];
  canon_answer wide = canon_utf8_to_utf16((const uint8_t *)text, len, units, len);
  if (!wide.ok) {
    return 1;
  }
  printf("utf16 units %" PRIu64 "\n", wide.number);

  uint8_t bytes[sizeof text - 1];
  canon_pass first = canon_utf16_to_utf8(units, (size_t)wide.number, bytes, len, true);
  printf("first pass read %" PRIu64 " wrote %" PRIu64 "\n", first.src_read, first.dst_written);
  canon_pass rest = canon_utf16_to_utf8(units + first.src_read, (size_t)(wide.number - first.src_read),
                                        bytes + first.dst_written, len - first.dst_written, false);
  printf("second pass read %" PRIu64 " wrote %" PRIu64 "\n", rest.src_read, rest.dst_written);
  if (memcmp(bytes, text, len) != 0) {
    return 1;
  }

  const uint16_t lone[] = {0x61, 0xD800};
  canon_answer refused = canon_utf16_to_utf16(lone, 2, units, 2);
  printf("%s %" PRIu64 "\n", refused.ok ? "ok" : "ill-formed at", refused.number);
  return 0;
}
