/* libFuzzer over what a server sends: a client in one of three phases takes the bytes in pieces. Its mutator mends the frames' lengths. */
#include "client.h"

#include <stdlib.h>
#include <string.h>

size_t LLVMFuzzerMutate(uint8_t *bytes, size_t size, size_t most);

/* The lengths of the kinds from 0x41 on; 0 where a kind has none of its own. */
static const uint8_t lengths[] = {17, 22, 9, 9, 9, 10, 0, 0};

size_t LLVMFuzzerCustomMutator(uint8_t *bytes, size_t size, size_t most, unsigned seed) {
  size = LLVMFuzzerMutate(bytes, size, most);
  if (seed % 8 == 0) return size;
  for (size_t at = 2; at + 5 <= size;) {
    size_t kind = (size_t)bytes[at + 4] - 0x41, length = kind < sizeof lengths ? lengths[kind] : 0;
    if (length == 0) length = bytes[at + 3];
    bytes[at] = bytes[at + 1] = bytes[at + 2] = 0;
    bytes[at + 3] = (uint8_t)length;
    at += 4 + length;
  }
  return size;
}

int LLVMFuzzerTestOneInput(const uint8_t *bytes, size_t size) {
  if (size < 2) return 0;
  femem *client = calloc(1, sizeof *client);
  client->descriptor = -1;
  client->session = 7;
  client->phase = (phase[]){OPENING, SERVED, RETURNING}[bytes[0] % 3];
  client->opened = client->phase != OPENING;
  client->next = client->low = client->floor_told = client->floor_asked = 1;
  size_t step = 1 + bytes[1] % 64;
  femem_error error = FEMEM_OK;
  for (size_t at = 2; at < size && error == FEMEM_OK && client->input_end < INPUT;) {
    size_t count = size - at < step ? size - at : step;
    if (count > INPUT - client->input_end) count = INPUT - client->input_end;
    memcpy(client->input + client->input_end, bytes + at, count);
    client->input_end += count;
    at += count;
    error = fe_digest(client);
  }
  femem_close(client);
  return 0;
}
