/* The exports of crates/grain_engine_c, over the records of grain_engine.h. No pointer may be NULL, not even that of an empty list.
 * hosts/c/compare holds these prototypes against the source. */
#ifndef GRAIN_PROVED_ENGINE_H
#define GRAIN_PROVED_ENGINE_H

#include "grain_engine.h"

/* What keeps a session between calls. */
typedef struct grain_session {
    bool made;
    void *block;
} grain_session;

/* How much a session shows. */
typedef struct grain_sizes {
    size_t rows;
    size_t texts;
    size_t count;
} grain_sizes;

/* A module as the proved code reads it. */
typedef struct grain_module_text {
    const uint8_t *name;
    size_t name_len;
    const uint8_t *source;
    size_t source_len;
} grain_module_text;

uint32_t grain_proved_session_compile(grain_session *session, const uint8_t *source, size_t source_len,
                                      const grain_bounds *bounds, uint8_t *text, size_t text_len, size_t *size);
uint32_t grain_proved_session_compile_modules(grain_session *session, const uint8_t *source, size_t source_len,
                                              const grain_module_text *modules, size_t modules_len,
                                              const grain_bounds *bounds, uint8_t *text, size_t text_len, size_t *size);
uint32_t grain_proved_session_load(grain_session *session, const uint8_t *bytes, size_t bytes_len, uint16_t host, uint64_t work,
                                   const grain_limits *limits, const grain_bounds *bounds, grain_read_error *error,
                                   grain_report *report);
uint32_t grain_proved_session_another(grain_session *session, grain_session *from, const grain_bounds *bounds);
uint32_t grain_proved_session_file(grain_session *session, uint8_t *file, size_t file_len, size_t *size);
void grain_proved_session_free(grain_session *session);
uint32_t grain_proved_session_register(grain_session *session, const uint8_t *name, size_t name_len, uint32_t parameters);
uint32_t grain_proved_session_set(grain_session *session, const uint8_t *name, size_t name_len, const grain_value *rows,
                                  size_t rows_len, const uint8_t *texts, size_t texts_len);
uint32_t grain_proved_session_get(grain_session *session, const uint8_t *name, size_t name_len);
uint32_t grain_proved_session_begin(grain_session *session, bool is_call, const uint8_t *name, size_t name_len,
                                    const grain_value *rows, size_t rows_len, const uint8_t *texts, size_t texts_len,
                                    uint32_t count);
uint32_t grain_proved_session_resume(grain_session *session, uint64_t turns, uint64_t *used);
uint32_t grain_proved_session_answer(grain_session *session, bool is_thrown, const grain_value *rows, size_t rows_len,
                                     const uint8_t *texts, size_t texts_len);
uint32_t grain_proved_session_receiver(grain_session *session, const grain_value *rows, size_t rows_len, const uint8_t *texts,
                                       size_t texts_len);
uint32_t grain_proved_session_fail(grain_session *session, const uint8_t *why, size_t why_len);
void grain_proved_session_stop(grain_session *session);
void grain_proved_session_reset(grain_session *session);
uint32_t grain_proved_session_asked(grain_session *session);
uint32_t grain_proved_session_dropped(grain_session *session);
uint32_t grain_proved_session_values(grain_session *session, grain_value *rows, size_t rows_len, uint8_t *texts,
                                     size_t texts_len, grain_sizes *sizes);
size_t grain_proved_session_name(grain_session *session, uint8_t *text, size_t text_len);
uint32_t grain_proved_session_failure(grain_session *session, grain_failure *failure);
size_t grain_proved_session_fault(grain_session *session, uint8_t *text, size_t text_len);
size_t grain_proved_session_printed(grain_session *session, uint8_t *text, size_t text_len);
void grain_proved_session_take_printed(grain_session *session);

#endif
