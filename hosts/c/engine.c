/* The functions of grain_engine.h over the proved ones of crates/grain_engine_c: each replaces NULL, and calls. What a session
 * shows is copied into blocks of the state, which grow as needed. */
#include "budget.h"
#include "proved_engine.h"

/* A block of a state that grows. */
typedef struct {
    void *bytes;
    size_t size;
} room;

struct grain_state {
    grain_session session;
    budget budget;
    room rows;
    room texts;
    room name;
    size_t passed;     /* how many values of the host's own were passed and not yet shown as dropped */
    grain_event event; /* what grain_state_resume returned last, until another call changes what there is to show */
};

/* How many rows a value of the host's own has. */
enum { FOREIGN_ROWS = 4 };

/* What an empty list points to. It is aligned to each type of items, and nothing is read or written there. */
static uint64_t nothing;

static const grain_bounds usual_bounds = GRAIN_BOUNDS_DEFAULT;
static const grain_limits usual_limits = GRAIN_LIMITS_DEFAULT;
static const grain_values no_values = {NULL, 0, NULL, 0, 0};

static const void *some(const void *list) {
    return list != NULL ? list : &nothing;
}

static void *some_room(void *list) {
    return list != NULL ? list : &nothing;
}

/* Whether a block has this many bytes, or grew to them. What it had is lost. */
static bool grow(room *of, size_t size) {
    if (size <= of->size)
        return true;
    void *bytes = take_block(size, 16);
    if (bytes == NULL)
        return false;
    if (of->bytes != NULL)
        free_block(of->bytes);
    of->bytes = bytes;
    of->size = size;
    return true;
}

static void release(room *of) {
    if (of->bytes != NULL)
        free_block(of->bytes);
}

/* The session of a state, on whose budget memory is taken from now on. */
static grain_session *session_of(grain_state *state) {
    use_budget(&state->budget);
    return &state->session;
}

/* A state whose session isn't made, with this budget of bytes, or NULL. */
static grain_state *new_state(size_t memory) {
    grain_state *state = grain_alloc(sizeof *state, 16);
    if (state != NULL)
        *state = (grain_state){{false, NULL}, new_budget(memory), {NULL, 0}, {NULL, 0}, {NULL, 0}, 0, GRAIN_EVENT_IDLE};
    return state;
}

/* Gives a state to the caller if its session was made, and frees it otherwise. */
static grain_status opened(grain_state **to, grain_state *state, uint32_t status) {
    *to = status == GRAIN_ACCEPTED ? state : NULL;
    if (status != GRAIN_ACCEPTED)
        grain_state_free(state);
    return (grain_status)status;
}

grain_status grain_state_compile(grain_state **state, const char *source, size_t source_len, const grain_bounds *bounds,
                                 char *text, size_t text_size) {
    size_t size;
    const grain_bounds *some_bounds = bounds != NULL ? bounds : &usual_bounds;
    grain_state *made = new_state(some_bounds->memory);
    *state = NULL;
    if (made == NULL)
        return GRAIN_OUT_OF_MEMORY;
    return opened(state, made,
                  grain_proved_session_compile(session_of(made), some(source), source_len, some_bounds,
                                               some_room(text), text_size, &size));
}

/* The modules without NULL, in a block that counts for the budget in use; NULL if that is refused. */
static grain_module_text *modules_of(const grain_module *modules, size_t many) {
    if (many > SIZE_MAX / sizeof(grain_module_text))
        return NULL;
    grain_module_text *texts = take_block(many * sizeof *texts, 16);
    for (size_t i = 0; texts != NULL && i < many; i++)
        texts[i] = (grain_module_text){some(modules[i].name), modules[i].name_len, some(modules[i].source), modules[i].source_len};
    return texts;
}

/* Has the session of a state compile. */
static uint32_t compile_modules(grain_state *state, const char *source, size_t source_len, const grain_module *modules,
                                size_t modules_len, const grain_bounds *bounds, char *text, size_t text_size) {
    size_t size;
    grain_session *session = session_of(state);
    grain_module_text *texts = modules_of(modules, modules_len);
    if (texts == NULL)
        return GRAIN_OUT_OF_MEMORY;
    uint32_t status = grain_proved_session_compile_modules(session, some(source), source_len, texts, modules_len, bounds,
                                                           some_room(text), text_size, &size);
    free_block(texts);
    return status;
}

grain_status grain_state_compile_modules(grain_state **state, const char *source, size_t source_len,
                                         const grain_module *modules, size_t modules_len, const grain_bounds *bounds,
                                         char *text, size_t text_size) {
    const grain_bounds *some_bounds = bounds != NULL ? bounds : &usual_bounds;
    grain_state *made = new_state(some_bounds->memory);
    *state = NULL;
    if (made == NULL)
        return GRAIN_OUT_OF_MEMORY;
    return opened(state, made,
                  compile_modules(made, source, source_len, modules, modules_len, some_bounds, text, text_size));
}

grain_status grain_state_load(grain_state **state, const uint8_t *bytes, size_t bytes_len, uint16_t caps, uint64_t limit,
                              const grain_limits *limits, const grain_bounds *bounds, grain_read_error *error,
                              grain_report *report) {
    grain_read_error unread_error;
    grain_report unread_report;
    const grain_bounds *some_bounds = bounds != NULL ? bounds : &usual_bounds;
    grain_state *made = new_state(some_bounds->memory);
    *state = NULL;
    if (made == NULL)
        return GRAIN_OUT_OF_MEMORY;
    return opened(state, made,
                  grain_proved_session_load(session_of(made), some(bytes), bytes_len, caps, limit,
                                            limits != NULL ? limits : &usual_limits, some_bounds,
                                            error != NULL ? error : &unread_error, report != NULL ? report : &unread_report));
}

grain_status grain_state_another(grain_state **other, grain_state *state, const grain_bounds *bounds) {
    const grain_bounds *some_bounds = bounds != NULL ? bounds : &usual_bounds;
    grain_state *made = new_state(some_bounds->memory);
    *other = NULL;
    if (made == NULL)
        return GRAIN_OUT_OF_MEMORY;
    return opened(other, made, grain_proved_session_another(session_of(made), &state->session, some_bounds));
}

grain_status grain_state_file(grain_state *state, grain_room *file) {
    return (grain_status)grain_proved_session_file(session_of(state), some_room(file->bytes), file->len, &file->size);
}

void grain_state_free(grain_state *state) {
    if (state == NULL)
        return;
    grain_proved_session_free(session_of(state));
    release(&state->rows);
    release(&state->texts);
    release(&state->name);
    use_budget(NULL);
    grain_dealloc(state);
}

grain_status grain_state_register(grain_state *state, const char *name, size_t name_len, uint32_t parameters) {
    return (grain_status)grain_proved_session_register(session_of(state), some(name), name_len, parameters);
}

/* Counts the values of the host's own that a call has passed. */
static uint32_t passed(grain_state *state, uint32_t status, const grain_values *values) {
    for (size_t i = 0; status == GRAIN_ACCEPTED && i < values->rows_len; i++)
        state->passed += values->rows[i].tag == GRAIN_VALUE_FOREIGN;
    return status;
}

/* A call that was accepted has changed what there is to show. */
static grain_status changed(grain_state *state, uint32_t status) {
    if (status == GRAIN_ACCEPTED)
        state->event = GRAIN_EVENT_IDLE;
    return (grain_status)status;
}

/* Shows the values of the session. */
static grain_status show(grain_state *state, grain_values *values) {
    grain_sizes sizes;
    for (;;) {
        size_t rows = state->rows.size / sizeof(grain_value);
        uint32_t status = grain_proved_session_values(session_of(state), some_room(state->rows.bytes), rows,
                                                      some_room(state->texts.bytes), state->texts.size, &sizes);
        if (status != GRAIN_ACCEPTED)
            return (grain_status)status;
        if (sizes.rows <= rows && sizes.texts <= state->texts.size)
            break;
        if (!grow(&state->rows, sizes.rows * sizeof(grain_value)) || !grow(&state->texts, sizes.texts))
            return GRAIN_OUT_OF_MEMORY;
    }
    *values = (grain_values){some(state->rows.bytes), sizes.rows, some(state->texts.bytes), sizes.texts, (uint32_t)sizes.count};
    return GRAIN_ACCEPTED;
}

grain_status grain_state_set(grain_state *state, const char *name, size_t name_len, const grain_values *value) {
    uint32_t status = grain_proved_session_set(session_of(state), some(name), name_len, some(value->rows), value->rows_len,
                                               some(value->texts), value->texts_len);
    return (grain_status)passed(state, status, value);
}

grain_status grain_state_get(grain_state *state, const char *name, size_t name_len, grain_values *value) {
    uint32_t status = grain_proved_session_get(session_of(state), some(name), name_len);
    /* The variable is shown in place of what was returned or thrown; arguments are shown again. */
    if (state->event != GRAIN_EVENT_CALLS)
        state->event = GRAIN_EVENT_IDLE;
    return status == GRAIN_ACCEPTED ? show(state, value) : (grain_status)status;
}

grain_status grain_state_dropped(grain_state *state, grain_values *values) {
    /* The session forgets what it shows, so there must be room for all before. */
    use_budget(&state->budget);
    if (!grow(&state->rows, state->passed * FOREIGN_ROWS * sizeof(grain_value)))
        return GRAIN_OUT_OF_MEMORY;
    uint32_t status = grain_proved_session_dropped(session_of(state));
    if (state->event != GRAIN_EVENT_CALLS)
        state->event = GRAIN_EVENT_IDLE;
    grain_status shown = status == GRAIN_ACCEPTED ? show(state, values) : (grain_status)status;
    if (shown == GRAIN_ACCEPTED)
        state->passed -= values->count;
    return shown;
}

void grain_state_reset(grain_state *state) {
    grain_proved_session_reset(session_of(state));
    state->event = GRAIN_EVENT_IDLE;
}

grain_status grain_state_begin(grain_state *state, const char *name, size_t name_len, const grain_values *arguments) {
    const grain_values *values = arguments != NULL ? arguments : &no_values;
    uint32_t status = grain_proved_session_begin(session_of(state), name != NULL, some(name), name_len, some(values->rows),
                                                 values->rows_len, some(values->texts), values->texts_len, values->count);
    return changed(state, passed(state, status, values));
}

grain_event grain_state_resume(grain_state *state, uint64_t turns, uint64_t *used) {
    uint64_t unread;
    state->event = (grain_event)grain_proved_session_resume(session_of(state), turns, used != NULL ? used : &unread);
    return state->event;
}

/* Shows the value that a run returned or threw. Another run may wait for the host already, whose call isn't shown. */
static grain_status show_ended(grain_state *state, grain_asked *asked) {
    grain_status status = show(state, &asked->values);
    asked->name = (const char *)&nothing;
    asked->name_len = 0;
    return status == GRAIN_ACCEPTED && asked->values.count == 0 ? GRAIN_BAD_VALUE : status;
}

grain_status grain_state_failure(grain_state *state, grain_failure *failure) {
    return (grain_status)grain_proved_session_failure(session_of(state), failure);
}

/* Whether the last run has just ended by a value that the script threw. */
static bool has_thrown(grain_state *state) {
    grain_failure failure;
    return state->event == GRAIN_EVENT_FAULTED && grain_proved_session_failure(session_of(state), &failure) == GRAIN_ACCEPTED &&
           failure.kind == GRAIN_FAULT_THROWN;
}

grain_status grain_state_asked(grain_state *state, grain_asked *asked) {
    if (state->event == GRAIN_EVENT_RETURNED || has_thrown(state))
        return show_ended(state, asked);
    if (state->event != GRAIN_EVENT_CALLS)
        return GRAIN_NOT_NOW;
    uint32_t status = grain_proved_session_asked(session_of(state));
    if (status != GRAIN_ACCEPTED)
        return (grain_status)status;
    size_t length = grain_proved_session_name(session_of(state), some_room(state->name.bytes), state->name.size);
    if (length >= state->name.size) {
        if (!grow(&state->name, length + 1))
            return GRAIN_OUT_OF_MEMORY;
        (void)grain_proved_session_name(session_of(state), state->name.bytes, state->name.size);
    }
    asked->name = state->name.bytes;
    asked->name_len = length;
    return show(state, &asked->values);
}

grain_status grain_state_receiver(grain_state *state, const grain_values *value) {
    uint32_t status = grain_proved_session_receiver(session_of(state), some(value->rows), value->rows_len, some(value->texts),
                                                    value->texts_len);
    return (grain_status)passed(state, status, value);
}

static grain_status answer_with(grain_state *state, bool is_thrown, const grain_values *value) {
    uint32_t status = grain_proved_session_answer(session_of(state), is_thrown, some(value->rows), value->rows_len,
                                                  some(value->texts), value->texts_len);
    return changed(state, passed(state, status, value));
}

grain_status grain_state_answer(grain_state *state, const grain_values *value) {
    return answer_with(state, false, value);
}

grain_status grain_state_throw(grain_state *state, const grain_values *value) {
    return answer_with(state, true, value);
}

grain_status grain_state_fail(grain_state *state, const char *why, size_t why_len) {
    return changed(state, grain_proved_session_fail(session_of(state), some(why), why_len));
}

void grain_state_stop(grain_state *state) {
    grain_proved_session_stop(session_of(state));
    state->event = GRAIN_EVENT_IDLE;
}

size_t grain_state_fault(grain_state *state, char *text, size_t size) {
    return grain_proved_session_fault(session_of(state), some_room(text), size);
}

size_t grain_state_printed(grain_state *state, char *text, size_t size) {
    return grain_proved_session_printed(session_of(state), some_room(text), size);
}

void grain_state_take_printed(grain_state *state) {
    grain_proved_session_take_printed(session_of(state));
}

size_t grain_state_memory(const grain_state *state) {
    return state->budget.taken;
}
