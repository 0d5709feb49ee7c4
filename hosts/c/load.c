/* Runs the top level of a stranger's program file, which `grain compile` or grain_state_file has made: load FILE. A refusal is shown
 * in a listing, and a fault with its line. */
#include "grain_engine.h"

#include <stdio.h>

enum { CAPS = GRAIN_CAP_FUNCTION, FILE_SIZE = 1 << 20, TURNS = 10000000 };

static int print(void *stream, const char *text, size_t length) {
    return fwrite(text, 1, length, stream) != length;
}

/* Shows why a program is refused, and the instructions of the chunk where that is. */
static void show_refusal(const uint8_t *bytes, size_t length, const grain_refusal *refusal) {
    char text[GRAIN_TEXT_SIZE];
    grain_file *file;
    grain_read_error error;
    (void)grain_refusal_text(refusal, text, sizeof text);
    printf("refused: %s\n", text);
    if (refusal->chunk == GRAIN_WHOLE_PROGRAM || grain_file_read(&file, bytes, length, NULL, &error) != GRAIN_ACCEPTED)
        return;
    const grain_contents *contents = grain_file_contents(file);
    (void)!grain_listing(contents->caps, &contents->program, refusal->chunk, print, stdout);
    grain_file_free(file);
}

static void print_number(const grain_value *row) {
    if (row->tag == GRAIN_VALUE_FLOAT)
        printf("result %g\n", grain_double(row));
    else
        printf("result %lld\n", (long long)row->number);
}

/* Runs the top level, and prints how it ends. */
static int run(grain_state *state) {
    char text[1024];
    grain_asked returned;
    grain_event event = GRAIN_EVENT_IDLE;
    if (grain_state_begin(state, NULL, 0, NULL) == GRAIN_ACCEPTED)
        event = grain_state_resume(state, TURNS, NULL);
    if (event == GRAIN_EVENT_RETURNED && grain_state_asked(state, &returned) == GRAIN_ACCEPTED) {
        print_number(&returned.values.rows[0]);
        return 0;
    }
    if (event == GRAIN_EVENT_FAULTED && grain_state_fault(state, text, sizeof text) != 0)
        puts(text);
    else
        puts(event == GRAIN_EVENT_PAUSED ? "out of turns" : "out of memory");
    return 1;
}

int main(int argc, char **argv) {
    static uint8_t bytes[FILE_SIZE];
    static const grain_bounds bounds = {100000, 16, 200, 4, 65536, 1 << 24};
    char text[GRAIN_TEXT_SIZE];
    grain_state *state;
    grain_read_error error;
    grain_report report;
    FILE *stream = argc == 2 ? fopen(argv[1], "rb") : NULL;
    if (stream == NULL)
        return 2;
    size_t length = fread(bytes, 1, sizeof bytes, stream);
    fclose(stream);
    grain_status status = grain_state_load(&state, bytes, length, CAPS, length, NULL, &bounds, &error, &report);
    if (status == GRAIN_MALFORMED && grain_read_error_text(&error, text, sizeof text) != 0)
        puts(text);
    else if (status == GRAIN_REFUSED)
        show_refusal(bytes, length, &report.refusal);
    else if (status != GRAIN_ACCEPTED)
        puts(grain_status_text(status));
    int failed = status != GRAIN_ACCEPTED || run(state);
    grain_state_free(state);
    return failed;
}
