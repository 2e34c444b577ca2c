/* Writes the tables of tables.h as libdvbpsi's generators make them. */
#include <stdlib.h>
#include <sys/types.h>

#include "tables.h"

#include <dvbpsi/dvbpsi.h>

#include <dvbpsi/descriptor.h>
#include <dvbpsi/pat.h>
#include <dvbpsi/pmt.h>
#include <dvbpsi/psi.h>

static void say(dvbpsi_t *handle, const dvbpsi_msg_level_t level, const char *message) {
  (void)handle;
  (void)level;
  fprintf(stderr, "%s\n", message);
}

static void write_sections(dvbpsi_psi_section_t *sections) {
  if (!sections)
    exit(EXIT_FAILURE);
  for (dvbpsi_psi_section_t *s = sections; s; s = s->p_next)
    write_section(s->p_data, 3 + s->i_length);
  dvbpsi_DeletePSISections(sections);
}

static void write_pat(dvbpsi_t *handle, const struct pat *asked) {
  dvbpsi_pat_t *pat = dvbpsi_pat_new(asked->id, asked->version, asked->current);
  for (size_t i = 0; i < asked->listed + asked->more; i++) {
    struct program program = program_of(asked, i);
    dvbpsi_pat_program_add(pat, program.number, program.pid);
  }
  write_pat_asked(asked);
  write_sections(dvbpsi_pat_sections_generate(handle, pat, asked->in_a_section));
  dvbpsi_pat_delete(pat);
}

static void add_stream(dvbpsi_pmt_t *pmt, struct stream stream) {
  dvbpsi_pmt_es_t *es = dvbpsi_pmt_es_add(pmt, stream.type, stream.pid);
  uint8_t *bytes = (uint8_t *)stream.info.bytes;
  for (size_t i = 0; i < stream.info.size; i += 2 + bytes[i + 1])
    dvbpsi_pmt_es_descriptor_add(es, bytes[i], bytes[i + 1], bytes + i + 2);
}

static void write_pmt(dvbpsi_t *handle, const struct pmt *asked) {
  dvbpsi_pmt_t *pmt =
      dvbpsi_pmt_new(asked->program, asked->version, asked->current, asked->pcr_pid);
  uint8_t *bytes = (uint8_t *)asked->descriptors.bytes;
  for (size_t i = 0; i < asked->descriptors.size; i += 2 + bytes[i + 1])
    dvbpsi_pmt_descriptor_add(pmt, bytes[i], bytes[i + 1], bytes + i + 2);
  for (size_t i = 0; i < asked->listed + asked->more; i++)
    add_stream(pmt, stream_of(asked, i));
  write_pmt_asked(asked);
  write_sections(dvbpsi_pmt_sections_generate(handle, pmt));
  dvbpsi_pmt_delete(pmt);
}

int main(void) {
  dvbpsi_t *handle = dvbpsi_new(say, DVBPSI_MSG_WARN);
  if (!handle)
    return EXIT_FAILURE;
  for (size_t i = 0; i < COUNT(pats); i++)
    write_pat(handle, &pats[i]);
  for (size_t i = 0; i < COUNT(pmts); i++)
    write_pmt(handle, &pmts[i]);
  dvbpsi_delete(handle);
  return EXIT_SUCCESS;
}
