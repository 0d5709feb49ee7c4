/* A host of scripts: compiles a stranger's script within bounds, gives it a module and three functions, runs it, and calls its
 * `score` three times: engine_host FILE. An error is shown with its line. */
#include "callbacks.h"

#include <stdio.h>

enum { TURNS = 1000000, SOURCE_SIZE = 1 << 16 };

static grain_status answer(grain_state *state, int64_t number) {
    grain_value row = grain_integer(number);
    grain_values value = {&row, 1, NULL, 0, 1};
    return grain_state_answer(state, &value);
}

static grain_status limit(void *context, grain_state *state, const grain_asked *asked) {
    (void)asked;
    return answer(state, *(const int64_t *)context);
}

/* The script may catch that the argument is no integer. */
static grain_status twice(void *context, grain_state *state, const grain_asked *asked) {
    (void)context;
    const grain_value *argument = asked->values.rows;
    return argument->tag == GRAIN_VALUE_INTEGER ? answer(state, 2 * argument->number) : grain_state_throw(state, &asked->values);
}

static grain_status fetch(void *context, grain_state *state, const grain_asked *asked) {
    (void)context;
    return grain_state_throw(state, &asked->values);
}

static int64_t hundred = 100;
static const grain_host_function functions[] = {{"limit", 0, limit, &hundred}, {"double", 1, twice, NULL}, {"fetch", 1, fetch, NULL}};
enum { FUNCTIONS = sizeof functions / sizeof *functions };

/* What scripts may import. */
static const char levels[] = "fn level(score) { if score < 5 { 1 } else { 2 } }\n";
static const grain_module modules[] = {{"levels", 6, levels, sizeof levels - 1}};
enum { MODULES = sizeof modules / sizeof *modules };

static void print_number(const grain_value *row) {
    if (row->tag == GRAIN_VALUE_FLOAT)
        printf("%g\n", grain_double(row));
    else
        printf("%lld\n", (long long)row->number);
}

/* Runs what has begun, and prints how it ends. */
static int run(grain_state *state) {
    char text[1024];
    grain_asked returned;
    grain_event event = grain_run(state, functions, FUNCTIONS, TURNS);
    if (event == GRAIN_EVENT_RETURNED && grain_state_asked(state, &returned) == GRAIN_ACCEPTED)
        return print_number(&returned.values.rows[0]), 0;
    if (event == GRAIN_EVENT_FAULTED && grain_state_fault(state, text, sizeof text) != 0)
        return puts(text), 1;
    return puts(event == GRAIN_EVENT_PAUSED ? "out of turns" : "out of memory"), 1;
}

int main(int argc, char **argv) {
    static char source[SOURCE_SIZE], report[1024];
    static const grain_bounds bounds = {100000, 16, 200, 4, 65536, 1 << 24};
    grain_state *state;
    FILE *stream = argc == 2 ? fopen(argv[1], "rb") : NULL;
    if (stream == NULL)
        return 2;
    size_t length = fread(source, 1, sizeof source, stream);
    fclose(stream);
    grain_status status =
        grain_state_compile_modules(&state, source, length, modules, MODULES, &bounds, report, sizeof report);
    if (status != GRAIN_ACCEPTED)
        return fputs(status == GRAIN_NO_SCRIPT ? report : "out of memory\n", stdout), 1;
    int failed = grain_register_all(state, functions, FUNCTIONS) != GRAIN_ACCEPTED ||
                 grain_state_begin(state, NULL, 0, NULL) != GRAIN_ACCEPTED || run(state);
    for (int n = 1; n <= 3 && !failed; n++) {
        grain_value row = grain_integer(n);
        grain_values argument = {&row, 1, NULL, 0, 1};
        failed = grain_state_begin(state, "score", 5, &argument) != GRAIN_ACCEPTED || run(state);
    }
    grain_state_free(state);
    return failed;
}
