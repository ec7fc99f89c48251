/* libFuzzer over the C client's reader of session files. Its mutator mends lengths and sums, so that most of what it tries passes them. */
#include "client.h"

#include <stdlib.h>
#include <string.h>

size_t LLVMFuzzerMutate(uint8_t *bytes, size_t size, size_t most);

static void put(uint8_t *at, uint64_t value, int count) {
  while (count-- > 0) at[count] = (uint8_t)value, value >>= 8;
}

static uint64_t number(const uint8_t *at, int count) {
  uint64_t value = 0;
  while (count-- > 0) value = value << 8 | *at++;
  return value;
}

size_t LLVMFuzzerCustomMutator(uint8_t *bytes, size_t size, size_t most, unsigned seed) {
  size = LLVMFuzzerMutate(bytes, size, most);
  if (size < SESSION_HEADER || seed % 16 == 0) return size;
  put(bytes + 16, session_sum(0, bytes, 16), SESSION_SUM);
  for (size_t at = SESSION_HEADER; size - at >= SESSION_HEAD + SESSION_SUM;) {
    size_t room = size - at - SESSION_HEAD - SESSION_SUM, payload = number(bytes + at, 4);
    if (payload > room) payload = seed % 3 ? room : room / 2;
    put(bytes + at, payload, 4);
    size_t end = SESSION_HEAD + payload;
    put(bytes + at + end, session_sum(session_sum(0, bytes + 8, 8), bytes + at, end), SESSION_SUM);
    at += end + SESSION_SUM;
  }
  return size;
}

int LLVMFuzzerTestOneInput(const uint8_t *bytes, size_t size) {
  session_file *file = calloc(1, sizeof *file);
  file->descriptor = -1;
  if (!session_room(file, 0)) abort();
  size_t end = size;
  femem_error error = session_read(file, bytes, size, &end);
  if (error == FEMEM_OK && end > size) abort();
  session_forget_all(file);
  free(file->block);
  free(file);
  return 0;
}
