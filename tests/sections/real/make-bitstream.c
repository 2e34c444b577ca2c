/* Writes the tables of tables.h as biTStream's headers lay them out. A PAT of
 * more programs than one section is to have is divided here: biTStream leaves
 * that to its user. */
#include <stdlib.h>
#include <string.h>

#include "tables.h"

#include <bitstream/mpeg/psi.h>

static void finish(uint8_t *section) {
  psi_set_crc(section);
  write_section(section, PSI_HEADER_SIZE + psi_get_length(section));
}

static void write_pat_section(const struct pat *asked, size_t from, size_t to, size_t number,
                              size_t last) {
  PSI_DECLARE(section);
  pat_init(section);
  pat_set_length(section, (to - from) * PAT_PROGRAM_SIZE);
  pat_set_tsid(section, asked->id);
  psi_set_version(section, asked->version);
  if (asked->current)
    psi_set_current(section);
  psi_set_section(section, number);
  psi_set_lastsection(section, last);
  for (size_t i = from; i < to; i++) {
    struct program program = program_of(asked, i);
    uint8_t *entry = pat_get_program(section, i - from);
    patn_init(entry);
    patn_set_program(entry, program.number);
    patn_set_pid(entry, program.pid);
  }
  finish(section);
}

static void write_pat(const struct pat *asked) {
  size_t count = asked->listed + asked->more;
  size_t last = count == 0 ? 0 : (count - 1) / asked->in_a_section;
  write_pat_asked(asked);
  for (size_t number = 0; number <= last; number++) {
    size_t from = number * asked->in_a_section;
    size_t to = number == last ? count : from + asked->in_a_section;
    write_pat_section(asked, from, to, number, last);
  }
}

static void write_pmt(const struct pmt *asked) {
  size_t count = asked->listed + asked->more;
  PSI_DECLARE(section);
  pmt_init(section);
  psi_set_length(section, PSI_MAX_SIZE);
  pmt_set_program(section, asked->program);
  psi_set_version(section, asked->version);
  if (asked->current)
    psi_set_current(section);
  pmt_set_pcrpid(section, asked->pcr_pid);
  pmt_set_desclength(section, asked->descriptors.size);
  if (asked->descriptors.size)
    memcpy(pmt_get_descs(section) + DESCS_HEADER_SIZE, asked->descriptors.bytes,
           asked->descriptors.size);
  for (size_t i = 0; i < count; i++) {
    struct stream stream = stream_of(asked, i);
    uint8_t *entry = pmt_get_es(section, i);
    pmtn_init(entry);
    pmtn_set_streamtype(entry, stream.type);
    pmtn_set_pid(entry, stream.pid);
    pmtn_set_desclength(entry, stream.info.size);
    if (stream.info.size)
      memcpy(pmtn_get_descs(entry) + DESCS_HEADER_SIZE, stream.info.bytes, stream.info.size);
  }
  uint8_t *end = pmt_get_es(section, count);
  pmt_set_length(section, end - section - PMT_HEADER_SIZE);
  write_pmt_asked(asked);
  finish(section);
}

int main(void) {
  for (size_t i = 0; i < COUNT(pats); i++)
    write_pat(&pats[i]);
  for (size_t i = 0; i < COUNT(pmts); i++)
    write_pmt(&pmts[i]);
  return EXIT_SUCCESS;
}
