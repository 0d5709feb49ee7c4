/* Functions of the host as callbacks, over grain_engine.h. Each is called between two calls of the library, and may call it. */
#ifndef GRAIN_CALLBACKS_H
#define GRAIN_CALLBACKS_H

#include "grain_engine.h"

#include <string.h>

/* Ends the call by grain_state_answer, grain_state_throw or grain_state_fail, and returns what that returned. */
typedef grain_status (*grain_callback)(void *context, grain_state *state, const grain_asked *asked);

typedef struct grain_host_function {
    const char *name;
    uint32_t parameters;
    grain_callback callback;
    void *context;
} grain_host_function;

static inline grain_status grain_register_all(grain_state *state, const grain_host_function *functions, size_t len) {
    grain_status status = GRAIN_ACCEPTED;
    for (size_t i = 0; i < len && status == GRAIN_ACCEPTED; i++)
        status = grain_state_register(state, functions[i].name, strlen(functions[i].name), functions[i].parameters);
    return status;
}

static inline grain_status grain_serve(grain_state *state, const grain_host_function *functions, size_t len) {
    grain_asked asked;
    grain_status status = grain_state_asked(state, &asked);
    for (size_t i = 0; i < len && status == GRAIN_ACCEPTED; i++)
        if (asked.values.count == functions[i].parameters && asked.name_len == strlen(functions[i].name) &&
            memcmp(asked.name, functions[i].name, asked.name_len) == 0)
            return functions[i].callback(functions[i].context, state, &asked);
    return status == GRAIN_ACCEPTED ? GRAIN_NO_NAME : status;
}

/* Resumes the last run for at most this number of turns, and calls the functions that it calls. A run whose callback didn't
 * end its call is stopped. */
static inline grain_event grain_run(grain_state *state, const grain_host_function *functions, size_t len, uint64_t turns) {
    for (;;) {
        uint64_t used;
        grain_event event = grain_state_resume(state, turns, &used);
        turns -= used;
        if (event != GRAIN_EVENT_CALLS)
            return event;
        if (grain_serve(state, functions, len) != GRAIN_ACCEPTED) {
            grain_state_stop(state);
            return GRAIN_EVENT_IDLE;
        }
    }
}

#endif
