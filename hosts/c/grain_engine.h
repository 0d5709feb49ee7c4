/* grain_engine: scripts in the host's process. It compiles a script or reads a program file, verifies it, and runs it by the
 * proved machine.
 *
 * Nothing calls back into the host. A run pauses when the script calls a function of the host, when its turns are used up, and
 * at its end. grain_state_resume returns why, and the host answers and resumes it:
 *
 *     grain_state_compile(&state, source, length, &bounds, text, sizeof text);
 *     grain_state_register(state, "twice", 5, 1);
 *     grain_state_begin(state, NULL, 0, NULL);
 *     while ((event = grain_state_resume(state, 1000, NULL)) == GRAIN_EVENT_CALLS)
 *         ... grain_state_asked(state, &asked), and then grain_state_answer(state, &value) ...
 *
 * So no exception, no jump and no panic of the host's can leave the library, an event loop can answer later, and the host may
 * run another function of the script while it is asked.
 *
 * Values cross by copy, as rows (grain_value of grain.h). What the host passes stays the host's. What it is shown stays until
 * the next call with the same state. There is nothing to free but states.
 *
 * One thread at a time may use a state, for calls that read it too. Different threads may use states that share a program. The
 * other rules of grain.h hold. Memory is taken by grain_alloc, as much as grain_bounds allows. A refused allocation is a result,
 * and ends at most the run.
 *
 * Functions of scripts on floats are those of the C library's mathematics: a program with these calls links -lm behind libgrain.a. */
#ifndef GRAIN_ENGINE_H
#define GRAIN_ENGINE_H

#include "grain.h"

#include <string.h>

#ifdef __cplusplus
extern "C" {
#endif

#if defined(__cplusplus) && __cplusplus >= 201703L
#define GRAIN_NODISCARD [[nodiscard]]
#elif defined(__GNUC__)
#define GRAIN_NODISCARD __attribute__((warn_unused_result))
#else
#define GRAIN_NODISCARD
#endif

/* The variables of one script, and its runs. */
typedef struct grain_state grain_state;

/* What a script may use. */
typedef struct grain_bounds {
    size_t value_size;  /* how many values and bytes of text one value has at most */
    size_t value_depth; /* how deep values are nested at most, up to GRAIN_DEPTH_MAX */
    size_t calls;       /* how many calls of functions of the script may wait in one run */
    size_t runs;        /* how many runs may wait for the host while another one is under way */
    size_t printed;     /* how many bytes that were printed are kept; one more ends the run */
    size_t memory;      /* how many bytes of memory the state takes at most, the program and what is shown among them */
} grain_bounds;

#define GRAIN_BOUNDS_DEFAULT {16000000, 64, 1000, 16, 1 << 20, 1 << 28}

/* Values, one after another. */
typedef struct grain_values {
    const grain_value *rows;
    size_t rows_len;
    const uint8_t *texts; /* the bytes of texts and blobs, one after another */
    size_t texts_len;
    uint32_t count; /* how many values these are */
} grain_values;

/* Rows of values that hold no others. The bytes of the texts of several values follow one another. */
static inline grain_value grain_unit(void) {
    grain_value row = {GRAIN_VALUE_UNIT, 0, 0};
    return row;
}
static inline grain_value grain_bool(bool value) {
    grain_value row = {value ? GRAIN_VALUE_TRUE : GRAIN_VALUE_FALSE, 0, 0};
    return row;
}
static inline grain_value grain_integer(int64_t number) {
    grain_value row = {GRAIN_VALUE_INTEGER, 0, number};
    return row;
}
/* A float crosses as its 64 bits. Of NaN there is one: it comes back with other bits than it had, perhaps. */
static inline grain_value grain_float(double number) {
    grain_value row = {GRAIN_VALUE_FLOAT, 0, 0};
    memcpy(&row.number, &number, sizeof number);
    return row;
}
/* The double of a row with the tag GRAIN_VALUE_FLOAT. */
static inline double grain_double(const grain_value *row) {
    double number;
    memcpy(&number, &row->number, sizeof number);
    return number;
}
static inline grain_value grain_text(int64_t from, uint32_t len) {
    grain_value row = {GRAIN_VALUE_TEXT, len, from};
    return row;
}

/* The tag of a value of the host's own. Scripts pass it on and compare it, and can't make one. A range follows, from its kind to its
 * number: the host knows what they mean. (Files use the tag for shared values, which no state has.) */
#define GRAIN_VALUE_FOREIGN GRAIN_VALUE_SHARED

/* Writes the rows of a value of the host's own. */
static inline void grain_foreign(grain_value rows[4], int64_t kind, int64_t number) {
    rows[0] = grain_integer(0);
    rows[0].tag = GRAIN_VALUE_FOREIGN;
    rows[1] = grain_integer(0);
    rows[1].tag = GRAIN_VALUE_RANGE;
    rows[2] = grain_integer(kind);
    rows[3] = grain_integer(number);
}

/* ---- States ---- */

/* Compiles a source text, which can't import modules, and makes a state of it that has no variables. `bounds` may be NULL:
 * GRAIN_BOUNDS_DEFAULT.
 *
 * GRAIN_ACCEPTED: *state is the state, until grain_state_free. With all other results it is NULL. GRAIN_NO_SCRIPT: the text has
 * an error. A message with its line, its column and an excerpt is written to `text`, as much as there is room for, ended by
 * 0. GRAIN_BAD_LIMIT: bounds->value_depth is above GRAIN_DEPTH_MAX. GRAIN_OUT_OF_MEMORY. */
GRAIN_NODISCARD grain_status grain_state_compile(grain_state **state, const char *source, size_t source_len,
                                                 const grain_bounds *bounds, char *text, size_t text_size);

/* A module that scripts may import: its name, as `import` has it, and its text. */
typedef struct grain_module {
    const char *name;
    size_t name_len;
    const char *source;
    size_t source_len;
} grain_module;

/* Compiles a source text as grain_state_compile does, and the modules that it and they import: those of a list, which is read
 * until the call returns. It takes time linear in all names and texts, and n log n for n bytes of names, whatever they are.
 *
 * GRAIN_NO_SCRIPT also means that a module has an error, which may be the import of one that isn't listed, that a name or a text
 * isn't UTF-8, or that two modules have the same name. The message names the module in place of `script`. */
GRAIN_NODISCARD grain_status grain_state_compile_modules(grain_state **state, const char *source, size_t source_len,
                                                         const grain_module *modules, size_t modules_len,
                                                         const grain_bounds *bounds, char *text, size_t text_size);

/* Reads a program file as grain_file_read does, verifies it as grain_file_verify does, and makes a state of it. `limits`, `bounds`,
 * `error` and `report` may be NULL.
 *
 * GRAIN_ACCEPTED: *state is the state. With all other results it is NULL. GRAIN_MALFORMED: *error is written. GRAIN_REFUSED:
 * *report is written, also if a constant is a value of a host. GRAIN_BAD_LIMIT, GRAIN_OUT_OF_MEMORY. */
GRAIN_NODISCARD grain_status grain_state_load(grain_state **state, const uint8_t *bytes, size_t bytes_len, uint16_t caps,
                                              uint64_t limit, const grain_limits *limits, const grain_bounds *bounds,
                                              grain_read_error *error, grain_report *report);

/* Makes another state of the same script, without variables, functions of the host and runs. Both share the program, whose memory
 * counts for the state that made it. `bounds` may be NULL: GRAIN_BOUNDS_DEFAULT. With all results but GRAIN_ACCEPTED *other is
 * NULL: GRAIN_BAD_LIMIT, GRAIN_OUT_OF_MEMORY. */
GRAIN_NODISCARD grain_status grain_state_another(grain_state **other, grain_state *state, const grain_bounds *bounds);

/* Writes the program file of a state's script (FORMAT.md, "Program files"), which grain_state_load takes. GRAIN_SHORT: only
 * file->size is written, and there is less room. GRAIN_OUT_OF_MEMORY. */
GRAIN_NODISCARD grain_status grain_state_file(grain_state *state, grain_room *file);

/* Frees a state with its runs. NULL: nothing happens. */
void grain_state_free(grain_state *state);

/* Registers a function of the host: a call of this name with this number of arguments pauses the run, if neither the script nor
 * the library has such a function. As a method it has the receiver as its first argument. GRAIN_OUT_OF_MEMORY, GRAIN_BAD_VALUE: the name is
 * not UTF-8. */
GRAIN_NODISCARD grain_status grain_state_register(grain_state *state, const char *name, size_t name_len, uint32_t parameters);

/* Sets a variable that the script finds by its name, or shows its value until the next call with the state. Scripts see
 * variables that they don't declare themselves. grain_state_get also finds what the top level declared outside of blocks, as it was
 * at the end of its last run. GRAIN_NO_NAME: the script has no such name, or the variable has no value.
 * GRAIN_BAD_VALUE: the rows are not one value within the bounds. GRAIN_OUT_OF_MEMORY. With all but GRAIN_ACCEPTED nothing has
 * changed. */
GRAIN_NODISCARD grain_status grain_state_set(grain_state *state, const char *name, size_t name_len, const grain_values *value);
GRAIN_NODISCARD grain_status grain_state_get(grain_state *state, const char *name, size_t name_len, grain_values *value);

/* Shows the values of the host's own of which the state has no copy left, each as often as it was passed, until the next call with
 * the state. The state forgets them; until then it remembers them, in its memory. GRAIN_OUT_OF_MEMORY: it forgets none. */
GRAIN_NODISCARD grain_status grain_state_dropped(grain_state *state, grain_values *values);

/* Ends all runs, and drops all variables and what was printed. Functions of the host stay. */
void grain_state_reset(grain_state *state);

/* ---- Runs ---- */

/* Begins a run: of the top level if `name` is NULL, else of the function of the script with this name and number of arguments.
 * `arguments` may be NULL: none. Nothing is done before grain_state_resume. If the last run waits for the host, it waits until this one
 * has ended.
 *
 * GRAIN_NO_NAME: there is no such function. GRAIN_NOT_NOW: the last run can be resumed, or a run of the top level is to
 * begin while another run waits, or as many runs are under way as may. GRAIN_BAD_VALUE: the rows are not values within the
 * bounds. GRAIN_OUT_OF_MEMORY. With all but GRAIN_ACCEPTED nothing has changed. */
GRAIN_NODISCARD grain_status grain_state_begin(grain_state *state, const char *name, size_t name_len,
                                               const grain_values *arguments);

/* Why a run stopped. */
typedef enum grain_event {
    GRAIN_EVENT_IDLE = 0,         /* no run is under way */
    GRAIN_EVENT_RETURNED = 1,     /* it has ended: grain_state_asked shows the value that it returned */
    GRAIN_EVENT_CALLS = 2,        /* it waits for the host: grain_state_asked shows the function and the arguments */
    GRAIN_EVENT_PAUSED = 3,       /* its turns are used up */
    GRAIN_EVENT_FAULTED = 4,      /* it has ended by a fault: grain_state_failure, grain_state_fault */
    GRAIN_EVENT_OUT_OF_MEMORY = 5 /* it has ended, since an allocation was refused */
} grain_event;

/* Resumes the last run for at most this number of turns. *used, which may be NULL, is how many it made. A turn is an
 * operation that is done, a function that begins, or a fault that is caught. It isn't a bound on time: one operation may sort
 * or copy a value as large as the bounds allow. */
GRAIN_NODISCARD grain_event grain_state_resume(grain_state *state, uint64_t turns, uint64_t *used);

/* What the last call of grain_state_resume has for the host. */
typedef struct grain_asked {
    const char *name; /* of the function, in UTF-8 and not ended by 0; empty unless a function is called */
    size_t name_len;
    grain_values values; /* the arguments, or the value that was returned or thrown */
} grain_asked;

/* Shows what the last run asks, returned or threw, until the next call with the state. If a run has ended while another one waits
 * for the host, grain_state_resume has the call of that one again, and takes no turn.
 *
 * GRAIN_NOT_NOW: nothing is asked, returned or thrown, or the state was changed since. GRAIN_BAD_VALUE: a value has no rows, since closures
 * share it. GRAIN_OUT_OF_MEMORY. */
GRAIN_NODISCARD grain_status grain_state_asked(grain_state *state, grain_asked *asked);

/* Replaces the first argument of the call for which the last run waits, if that is a variable or, of a method, a part of one:
 * `x.f()`, `f(x)`, `x.a.f()`. When the call has ended, the variable has this value. GRAIN_NOT_NOW: no run waits for such a
 * call. GRAIN_BAD_VALUE: the rows are not one value within the bounds. GRAIN_OUT_OF_MEMORY. */
GRAIN_NODISCARD grain_status grain_state_receiver(grain_state *state, const grain_values *value);

/* Ends the call for which the last run waits: with its value; with a value that is thrown, which the script may catch; or with a
 * fault that no script catches. After GRAIN_ACCEPTED the run can be resumed.
 *
 * GRAIN_NOT_NOW: no run waits for the host. GRAIN_BAD_VALUE: the rows are not one value within the bounds, or the text is not UTF-8.
 * GRAIN_OUT_OF_MEMORY. With all but GRAIN_ACCEPTED nothing has changed. */
GRAIN_NODISCARD grain_status grain_state_answer(grain_state *state, const grain_values *value);
GRAIN_NODISCARD grain_status grain_state_throw(grain_state *state, const grain_values *value);
GRAIN_NODISCARD grain_status grain_state_fail(grain_state *state, const char *why, size_t why_len);

/* Ends the last run, whatever it waits for. Variables stay. */
void grain_state_stop(grain_state *state);

/* Of which kind a fault is. No script catches the last three. */
typedef enum grain_fault_kind {
    GRAIN_FAULT_THROWN = 1,           /* the script threw a value, which grain_state_asked shows */
    GRAIN_FAULT_NO_VARIABLE = 2,      /* no variable has the name */
    GRAIN_FAULT_NO_FUNCTION = 3,      /* no function has the name and takes such arguments */
    GRAIN_FAULT_NO_PROPERTY = 4,      /* a value has no such property */
    GRAIN_FAULT_WRONG_TYPE = 5,       /* a value is of another type */
    GRAIN_FAULT_OVERFLOW = 6,         /* a result doesn't fit 64 bits */
    GRAIN_FAULT_DIVISION_BY_ZERO = 7, /* a divisor is zero */
    GRAIN_FAULT_OUT_OF_BOUNDS = 8,    /* no item has the index */
    GRAIN_FAULT_NO_THIS = 9,          /* `this` is used in a function that wasn't called on a value */
    GRAIN_FAULT_UNSUPPORTED = 10,     /* the engine doesn't do the operation */
    GRAIN_FAULT_TOO_DEEP = 11,        /* the bound on calls was reached */
    GRAIN_FAULT_TOO_LARGE = 12,       /* a value isn't within the bounds */
    GRAIN_FAULT_HOST = 13             /* the host failed the call, or too much was printed */
} grain_fault_kind;

/* Why and where a run failed. */
typedef struct grain_failure {
    uint32_t kind;    /* grain_fault_kind */
    uint32_t line;    /* counted from 1; 0: it isn't known */
    uint32_t column;  /* counted from 1; 0: it isn't known */
    size_t at;        /* the address of the operation in the program's code */
} grain_failure;

/* Writes why and where the last run that failed did. It stays until another fails, or the state is reset. GRAIN_NOT_NOW: none has
 * failed. */
GRAIN_NODISCARD grain_status grain_state_failure(grain_state *state, grain_failure *failure);

/* Writes the last fault and the calls that it ended, a line each, as snprintf does: as much as there is room for, ended by 0 unless
 * size is 0. Returns how long the text is; 0: there was none. */
size_t grain_state_fault(grain_state *state, char *text, size_t size);

/* How many bytes of memory the state has taken and not freed. The program counts for the state that compiled or loaded it. */
size_t grain_state_memory(const grain_state *state);

/* Writes what was printed and not yet taken, as grain_state_fault does. grain_state_take_printed forgets it. */
size_t grain_state_printed(grain_state *state, char *text, size_t size);
void grain_state_take_printed(grain_state *state);

#ifdef __cplusplus
}
#endif
#undef GRAIN_NODISCARD
#endif
