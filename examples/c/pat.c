/*
 * pat: prints every PAT of the transport stream in a file, one line each.
 *
 *   cc -Iinclude -o pat examples/c/pat.c target/staticlib/libjambpepper.a
 *   ./pat capture/line-up-change.ts
 */
#include "jambpepper.h"
#include <errno.h>
#include <stdio.h>
#include <string.h>

static uint8_t packet[JAMBPEPPER_PACKET_BYTES];
static uint8_t buffer[JAMBPEPPER_BUFFER_BYTES];

static void print_pat(unsigned long packet_number, const uint8_t *section, size_t length) {
  JambpepperTableHeader header = jambpepper_table_header(section, length);
  JambpepperPart body = jambpepper_body(section, length);
  JambpepperProgram program = jambpepper_program_at(section + body.start, body.length, 0);

  printf("packet %lu: version %d", packet_number, header.version);
  while (program.answer == JAMBPEPPER_GIVEN) {
    if (program.program_number == 0)
      printf(", network on %d", program.pid);
    else
      printf(", %d on %d", program.program_number, program.pid);
    program = jambpepper_program_at(section + body.start, body.length, program.next);
  }
  if (program.answer != JAMBPEPPER_WALK_AT_END)
    printf(", broken off with answer %d, at %zu of the body", program.answer, program.offset);
  printf("\n");
}

/* prints the section that a step delivered; 1 where it delivered one, else 0 */
static int print_delivered(unsigned long packet_number, JambpepperStep step) {
  JambpepperPlace place =
      jambpepper_section(packet, sizeof packet, buffer, sizeof buffer, step.answer, step.place);

  if (place.holder == JAMBPEPPER_NOWHERE)
    return 0;
  print_pat(packet_number, jambpepper_section_bytes(place, packet, buffer), place.length);
  return 1;
}

/* 1 where the file could be read to its end, else 0 */
static int print_pats(FILE *file) {
  JambpepperReader reader = jambpepper_fresh(JAMBPEPPER_FULL);
  unsigned long packets = 0, sections = 0;

  for (; fread(packet, sizeof packet, 1, file) == 1; packets++) {
    JambpepperHeader header = jambpepper_header(packet, sizeof packet);
    JambpepperStep step;

    if (header.answer != JAMBPEPPER_GIVEN || header.pid != JAMBPEPPER_PAT_PID)
      continue;
    step = jambpepper_tail(reader, NULL, 0, packet, sizeof packet, buffer, sizeof buffer);
    sections += print_delivered(packets, step);
    step = jambpepper_head(step.reader, NULL, 0, packet, sizeof packet, buffer, sizeof buffer);
    sections += print_delivered(packets, step);
    reader = step.reader;
  }
  if (ferror(file))
    return 0;
  printf("%lu packets, %lu sections\n", packets, sections);
  return 1;
}

int main(int argc, char **argv) {
  FILE *file;

  if (argc != 2) {
    fprintf(stderr, "usage: pat FILE\n");
    return 2;
  }
  file = fopen(argv[1], "rb");
  if (file == NULL || !print_pats(file)) {
    fprintf(stderr, "pat: %s: %s\n", argv[1], strerror(errno));
    return 1;
  }
  fclose(file);
  return 0;
}
