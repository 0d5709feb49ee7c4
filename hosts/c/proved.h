/* The exports of crates/grain_c, over the records of grain.h. No pointer may be NULL, not even that of an empty list.
 * hosts/c/compare holds these prototypes against the source. */
#ifndef GRAIN_PROVED_H
#define GRAIN_PROVED_H

#include "grain.h"

/* What keeps a file between calls. */
typedef struct grain_held_file {
    bool made;
    void *block;
} grain_held_file;

uint32_t grain_proved_verify(uint16_t caps, uint64_t limit, const grain_program *program, uint16_t *depths,
                             size_t depths_len, grain_report *report);
uint32_t grain_proved_verify_with(grain_scratch *scratch, uint16_t caps, uint64_t limit, const grain_program *program,
                                  uint16_t *depths, size_t depths_len, grain_report *report);
uint32_t grain_proved_tighten(grain_scratch *scratch, uint16_t caps, uint64_t limit, const grain_program *program,
                              grain_chunk *tightened, size_t tightened_len, grain_report *report);
void grain_proved_slots(const grain_program *program, uint32_t *slots, size_t slots_len);
void grain_proved_scratch_free(grain_scratch *scratch);
bool grain_proved_check_pools(const grain_pools *pools, grain_pools_flaw *flaw);
uint32_t grain_proved_explain(uint16_t caps, const grain_program *program, size_t chunk, grain_row *rows, size_t rows_len,
                              grain_base *bases, size_t bases_len, grain_explanation *explanation);
uint32_t grain_proved_file_read(grain_held_file *file, const uint8_t *bytes, size_t bytes_len, const grain_limits *limits,
                                grain_contents *contents, grain_read_error *error);
void grain_proved_file_free(grain_held_file *file);
uint32_t grain_proved_file_verify(grain_scratch *scratch, const grain_contents *contents, uint16_t host, uint64_t limit,
                                  uint16_t *depths, size_t depths_len, grain_report *report);
uint32_t grain_proved_file_tighten(const uint8_t *bytes, size_t bytes_len, const grain_limits *limits, uint64_t limit,
                                   uint8_t *tightened, size_t tightened_len, size_t *size, grain_read_error *error,
                                   grain_report *report);
uint32_t grain_proved_file_strip(const uint8_t *bytes, size_t bytes_len, const grain_limits *limits, uint8_t *stripped,
                                 size_t stripped_len, size_t *size, uint8_t *sidecar, size_t sidecar_len,
                                 size_t *sidecar_size, grain_read_error *error);
size_t grain_proved_read_error_text(const grain_read_error *error, uint8_t *text, size_t text_len);
size_t grain_proved_refusal_text(const grain_refusal *refusal, uint8_t *text, size_t text_len);
size_t grain_proved_instruction_text(const uint8_t *code, size_t code_len, size_t at, uint8_t *text, size_t text_len);
bool grain_proved_count_instructions(const uint8_t *code, size_t code_len, size_t *count, size_t *damage);
bool grain_proved_instruction(const uint8_t *code, size_t code_len, size_t at, grain_instruction_row *instruction);
bool grain_proved_is_quiet(uint8_t tag);
bool grain_proved_site(const uint8_t *table, size_t table_len, uint32_t address, grain_place *place);
uint32_t grain_proved_check_table(const uint8_t *table, size_t table_len, uint64_t *named);
size_t grain_proved_table_entries(const uint8_t *table, size_t table_len, grain_entry *entries, size_t entries_len);
bool grain_proved_stream_site(const uint8_t *stream, size_t stream_len, uint32_t slot, grain_place *place);
uint32_t grain_proved_check_stream(const uint8_t *stream, size_t stream_len, uint64_t *named);
bool grain_proved_stream_sites(const uint8_t *stream, size_t stream_len, grain_place *sites, size_t sites_len,
                               size_t *count);
uint32_t grain_proved_interface(void);

#endif
