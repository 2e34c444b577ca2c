/* What the readers in C share with the driver, which declares the same in
 * src/others.rs. */
#include <stddef.h>
#include <stdint.h>

enum { PACKET_BYTES = 188, SECTION_BYTES = 1024 };

/* The packets of an input, and the number of the reader that the host hands
 * each to. */
struct packets {
  const uint8_t *bytes;
  const uint8_t *readers;
  size_t count;
  size_t reader_count;
};

/* What a host does with each delivered section: the same in every reader. */
struct delivered {
  uint64_t sections;
  uint64_t bytes;
  uint64_t mark;
};

static inline void deliver(struct delivered *delivered, const uint8_t *section, size_t size) {
  const uint8_t *end = section + size;
  uint32_t last =
      (uint32_t)end[-4] << 24 | (uint32_t)end[-3] << 16 | (uint32_t)end[-2] << 8 | end[-1];
  delivered->sections++;
  delivered->bytes += size;
  delivered->mark = delivered->mark * 31 + last;
}
