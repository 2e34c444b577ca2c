/* biTStream's gathering, with its CRC test or without. */
#include "readers.h"

#include <stdbool.h>
#include <stdlib.h>
#include <string.h>

#include <bitstream/mpeg/psi.h>
#include <bitstream/mpeg/ts.h>

struct gathering {
  uint8_t *buffer;
  uint16_t used;
};

static inline void take(struct delivered *delivered, uint8_t *section, bool test_crc) {
  if (psi_validate(section) && (!test_crc || psi_check_crc(section)))
    deliver(delivered, section, PSI_HEADER_SIZE + psi_get_length(section));
  free(section);
}

static inline void feed(struct gathering *gathering, uint8_t *packet, struct delivered *delivered,
                        bool test_crc) {
  if (!ts_validate(packet) || !ts_has_payload(packet))
    return;
  const uint8_t *payload = ts_section(packet);
  uint8_t length = packet + TS_SIZE - payload;
  if (!psi_assemble_empty(&gathering->buffer, &gathering->used)) {
    uint8_t *section =
        psi_assemble_payload(&gathering->buffer, &gathering->used, &payload, &length);
    if (section)
      take(delivered, section, test_crc);
  }
  payload = ts_next_section(packet);
  length = packet + TS_SIZE - payload;
  while (length) {
    uint8_t *section =
        psi_assemble_payload(&gathering->buffer, &gathering->used, &payload, &length);
    if (section)
      take(delivered, section, test_crc);
  }
}

static inline struct delivered read_all(const struct packets *packets, bool test_crc) {
  struct delivered delivered = {0, 0, 0};
  struct gathering *gatherings = calloc(packets->reader_count, sizeof *gatherings);
  if (!gatherings)
    abort();
  for (size_t i = 0; i < packets->count; i++)
    feed(&gatherings[packets->readers[i]], (uint8_t *)packets->bytes + i * PACKET_BYTES, &delivered,
         test_crc);
  for (size_t i = 0; i < packets->reader_count; i++)
    psi_assemble_reset(&gatherings[i].buffer, &gatherings[i].used);
  free(gatherings);
  return delivered;
}

struct delivered bitstream_with_crc(const struct packets *packets) {
  return read_all(packets, true);
}

struct delivered bitstream_without_crc(const struct packets *packets) {
  return read_all(packets, false);
}
