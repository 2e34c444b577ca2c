/* libdvbpsi's gathering, which tests the CRC of every section that has one: a
 * decoder that takes each section as it comes. */
#include "readers.h"

#include <stdbool.h>
#include <stdlib.h>
#include <sys/types.h>

#include <dvbpsi/dvbpsi.h>

#include <dvbpsi/psi.h>

static void take(dvbpsi_t *handle, dvbpsi_psi_section_t *section) {
  deliver(handle->p_sys, section->p_data, 3 + section->i_length);
  dvbpsi_DeletePSISections(section);
}

static dvbpsi_t *attach(struct delivered *delivered) {
  dvbpsi_t *handle = dvbpsi_new(NULL, DVBPSI_MSG_NONE);
  if (!handle)
    abort();
  handle->p_sys = delivered;
  handle->p_decoder = dvbpsi_decoder_new(take, SECTION_BYTES, true, sizeof(dvbpsi_decoder_t));
  if (!handle->p_decoder)
    abort();
  return handle;
}

static void detach(dvbpsi_t *handle) {
  dvbpsi_decoder_delete(handle->p_decoder);
  handle->p_decoder = NULL;
  dvbpsi_delete(handle);
}

struct delivered dvbpsi_sections(const struct packets *packets) {
  struct delivered delivered = {0, 0, 0};
  dvbpsi_t **handles = calloc(packets->reader_count, sizeof *handles);
  if (!handles)
    abort();
  for (size_t i = 0; i < packets->reader_count; i++)
    handles[i] = attach(&delivered);
  for (size_t i = 0; i < packets->count; i++)
    dvbpsi_packet_push(handles[packets->readers[i]], (uint8_t *)packets->bytes + i * PACKET_BYTES);
  for (size_t i = 0; i < packets->reader_count; i++)
    detach(handles[i]);
  free(handles);
  return delivered;
}
