/* The tables that libdvbpsi and biTStream are asked for, and how a table is
 * written down: what was asked, then the sections that came. README.md has the
 * form of the lines. */
#include <stdbool.h>
#include <stddef.h>
#include <stdint.h>
#include <stdio.h>

#define COUNT(array) (sizeof(array) / sizeof(array)[0])

/* A list of descriptors, each a tag, a length and as many bytes. */
struct descriptors {
  const uint8_t *bytes;
  size_t size;
};

#define DESCRIPTORS(...)                                                                           \
  { (const uint8_t[]){__VA_ARGS__}, sizeof((const uint8_t[]){__VA_ARGS__}) }
#define NO_DESCRIPTORS                                                                             \
  { NULL, 0 }

struct program {
  uint16_t number;
  uint16_t pid;
};

/* A PAT: the programs listed, then `more` programs numbered on from 1,000 with
 * PIDs from 4,096 on; at most `in_a_section` of them all in one section. */
struct pat {
  const char *name;
  uint16_t id;
  uint8_t version;
  bool current;
  struct program programs[4];
  size_t listed;
  size_t more;
  size_t in_a_section;
};

struct stream {
  uint8_t type;
  uint16_t pid;
  struct descriptors info;
};

/* A PMT: the streams listed, then `more` streams of type 3 with PIDs from 2,048
 * on, each with the last listed stream's info. */
struct pmt {
  const char *name;
  uint16_t program;
  uint8_t version;
  bool current;
  uint16_t pcr_pid;
  struct descriptors descriptors;
  struct stream streams[5];
  size_t listed;
  size_t more;
};

#define MOST_IN_A_SECTION 253

static const struct pat pats[] = {
    {"pat-no-program", 1, 0, true, {{0, 0}}, 0, 0, MOST_IN_A_SECTION},
    {"pat-one-program", 1, 0, true, {{1, 256}}, 1, 0, MOST_IN_A_SECTION},
    {"pat-network-first",
     0x1234,
     5,
     true,
     {{0, 16}, {1, 32}, {2, 33}, {65535, 8190}},
     4,
     0,
     MOST_IN_A_SECTION},
    {"pat-next-network-last",
     65535,
     31,
     false,
     {{256, 4095}, {7, 4096}, {0, 31}},
     3,
     0,
     MOST_IN_A_SECTION},
    {"pat-three-sections", 513, 18, true, {{0, 16}}, 1, 24, 10},
    {"pat-full-section", 2, 1, true, {{0, 16}}, 1, 259, MOST_IN_A_SECTION},
};

/* conditional access; registration; AVC video; language; subtitling and stream
 * identifier */
#define CONDITIONAL_ACCESS 0x09, 0x04, 0x06, 0x04, 0xE0, 0x64
#define REGISTRATION 0x05, 0x04, 'C', 'U', 'E', 'I'
#define AVC_VIDEO 0x28, 0x04, 0x64, 0x00, 0x28, 0x3F
#define LANGUAGE 0x0A, 0x04, 'd', 'e', 'u', 0x00
#define SUBTITLING 0x59, 0x08, 'f', 'r', 'a', 0x10, 0x00, 0x01, 0x00, 0x02
#define STREAM_IDENTIFIER 0x52, 0x01, 0x30

/* private bytes, 72 with tag and length */
#define TEN(n) n, n, n, n, n, n, n, n, n, n
#define PRIVATE(n) 0x80 + n, 0x46, TEN(n), TEN(n), TEN(n), TEN(n), TEN(n), TEN(n), TEN(n)

static const struct pmt pmts[] = {
    {"pmt-video-and-audio",
     1,
     0,
     true,
     257,
     NO_DESCRIPTORS,
     {{2, 257, NO_DESCRIPTORS}, {4, 258, NO_DESCRIPTORS}},
     2,
     0},
    {"pmt-descriptors",
     100,
     12,
     true,
     8190,
     DESCRIPTORS(CONDITIONAL_ACCESS, REGISTRATION),
     {{0x1B, 257, DESCRIPTORS(AVC_VIDEO)},
      {0x0F, 258, DESCRIPTORS(LANGUAGE)},
      {0x06, 259, DESCRIPTORS(SUBTITLING, STREAM_IDENTIFIER)},
      {0x86, 508, NO_DESCRIPTORS},
      {0xFF, 32, DESCRIPTORS(STREAM_IDENTIFIER)}},
     5,
     0},
    {"pmt-next-without-pcr",
     65535,
     31,
     false,
     8191,
     NO_DESCRIPTORS,
     {{0, 16, NO_DESCRIPTORS}},
     1,
     0},
    {"pmt-no-stream", 3, 1, true, 8191, DESCRIPTORS(REGISTRATION), {{0}}, 0, 0},
    {"pmt-nothing", 4, 2, true, 8191, NO_DESCRIPTORS, {{0}}, 0, 0},
    {"pmt-long-descriptors",
     5,
     3,
     true,
     4096,
     DESCRIPTORS(PRIVATE(1), PRIVATE(2), PRIVATE(3), PRIVATE(4)),
     {{5, 511, DESCRIPTORS(PRIVATE(5), PRIVATE(6), PRIVATE(7), PRIVATE(8))},
      {0x1B, 4096, NO_DESCRIPTORS}},
     2,
     0},
    {"pmt-many-streams",
     6,
     4,
     true,
     256,
     NO_DESCRIPTORS,
     {{2, 256, NO_DESCRIPTORS}, {3, 2047, DESCRIPTORS(LANGUAGE)}},
     2,
     32},
};

static inline struct program program_of(const struct pat *pat, size_t i) {
  if (i < pat->listed)
    return pat->programs[i];
  size_t more = i - pat->listed;
  return (struct program){1000 + more, 4096 + more};
}

static inline struct stream stream_of(const struct pmt *pmt, size_t i) {
  if (i < pmt->listed)
    return pmt->streams[i];
  return (struct stream){3, 2048 + (i - pmt->listed), pmt->streams[pmt->listed - 1].info};
}

static inline void write_hex(const uint8_t *bytes, size_t size) {
  if (size == 0)
    putchar('-');
  for (size_t i = 0; i < size; i++)
    printf("%02x", bytes[i]);
  putchar('\n');
}

static inline void write_pat_asked(const struct pat *pat) {
  printf("table %s\n", pat->name);
  printf("asked 0 %d %d %d\n", pat->id, pat->version, pat->current);
  for (size_t i = 0; i < pat->listed + pat->more; i++) {
    struct program program = program_of(pat, i);
    printf("program %d %d\n", program.number, program.pid);
  }
}

static inline void write_pmt_asked(const struct pmt *pmt) {
  printf("table %s\n", pmt->name);
  printf("asked 2 %d %d %d\n", pmt->program, pmt->version, pmt->current);
  printf("map %d ", pmt->pcr_pid);
  write_hex(pmt->descriptors.bytes, pmt->descriptors.size);
  for (size_t i = 0; i < pmt->listed + pmt->more; i++) {
    struct stream stream = stream_of(pmt, i);
    printf("stream %d %d ", stream.type, stream.pid);
    write_hex(stream.info.bytes, stream.info.size);
  }
}

static inline void write_section(const uint8_t *bytes, size_t size) {
  printf("section ");
  write_hex(bytes, size);
}
