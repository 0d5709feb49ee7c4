/* Any bytes as a program file that is run; others as calls of a state, with values for them, and as modules of a script. Statuses are
 * those of the header, rows that go in come out again, nothing leaks. In a part of the runs an allocation is refused, and in a part
 * each block ends at a page that can't be touched. For libFuzzer, with a corpus as for fuzz.c:
 *
 *     clang -g -O1 -fsanitize=fuzzer,address,undefined hosts/c/fuzz_engine.c hosts/out/libgrain.a -lm -o hosts/out/fuzz_engine
 *     hosts/out/fuzz_engine -max_len=4096 -max_total_time=600 hosts/out/found hosts/out/corpus
 */
#define _DEFAULT_SOURCE
#include "fences.h"
#include "grain_engine.h"

static const grain_bounds bounds = {1000, 12, 20, 3, 200, 1 << 18};

enum { ROWS = 16, TEXTS = 64, MANY = 64 };

static const char script[] = "fn same(x) { x } fn ask(x) { host(x) } fn caught(x) { try { host(x) } catch (e) { e } }\n"
                             "fn method(x) { x.host(); x } fn say(x) { print(x); shown = x; shown } fn spin(x) { loop { } }\n"
                             "fn deep(x) { deep([x]) } fn twice(x) { [x, x] } fn throws(x) { throw x }\n"
                             "host(1)";
static const char *const functions[] = {"same", "ask", "caught", "method", "say", "spin", "deep", "twice", "throws", "none"};

/* What is left of the input. */
typedef struct {
    const uint8_t *at;
    size_t left;
} input;

static uint8_t byte_of(input *from) {
    if (from->left == 0)
        return 0;
    from->left--;
    return *from->at++;
}

/* Values from the input: rows of four bytes each, then the bytes of their texts. */
typedef struct {
    grain_value rows[ROWS];
    uint8_t texts[TEXTS];
    grain_values all;
} values;

static void read_values(input *from, values *to) {
    size_t rows = byte_of(from) % ROWS, texts = byte_of(from) % TEXTS;
    uint32_t count = byte_of(from) % 3;
    for (size_t i = 0; i < rows; i++) {
        to->rows[i].tag = byte_of(from) % 18;
        to->rows[i].count = byte_of(from) % 8;
        to->rows[i].number = (int8_t)byte_of(from);
    }
    for (size_t i = 0; i < texts; i++)
        to->texts[i] = byte_of(from);
    to->all = (grain_values){to->rows, rows, to->texts, texts, count};
}

static bool is_one_of(grain_status status, grain_status one, grain_status other) {
    return status == GRAIN_ACCEPTED || status == GRAIN_OUT_OF_MEMORY || status == GRAIN_BAD_VALUE || status == one || status == other;
}

/* The values that are shown begin again as arguments, and are shown again. */
static void try_again(grain_state *state, const grain_asked *asked) {
    static grain_value rows[1 << 12];
    static uint8_t texts[1 << 12];
    if (asked->values.count != 1 || asked->values.rows_len > 1 << 12 || asked->values.texts_len > 1 << 12)
        return;
    memcpy(rows, asked->values.rows, asked->values.rows_len * sizeof *rows);
    memcpy(texts, asked->values.texts, asked->values.texts_len);
    grain_values copy = {rows, asked->values.rows_len, texts, asked->values.texts_len, 1};
    grain_asked again;
    grain_status status = grain_state_begin(state, "same", 4, &copy);
    if (status != GRAIN_ACCEPTED) {
        REQUIRE(status == GRAIN_OUT_OF_MEMORY || status == GRAIN_NOT_NOW);
        return;
    }
    grain_event event = grain_state_resume(state, 100, NULL);
    if (event != GRAIN_EVENT_RETURNED) {
        REQUIRE(event == GRAIN_EVENT_OUT_OF_MEMORY);
        return;
    }
    status = grain_state_asked(state, &again);
    REQUIRE(status == GRAIN_ACCEPTED || status == GRAIN_OUT_OF_MEMORY);
    if (status == GRAIN_ACCEPTED)
        REQUIRE(again.values.rows_len == copy.rows_len && again.values.texts_len == copy.texts_len &&
                memcmp(again.values.rows, rows, copy.rows_len * sizeof *rows) == 0 &&
                memcmp(again.values.texts, texts, copy.texts_len) == 0);
}

static void begin(grain_state *state, input *from) {
    values given;
    read_values(from, &given);
    const char *name = functions[byte_of(from) % 10];
    grain_status status = grain_state_begin(state, name, strlen(name), &given.all);
    REQUIRE(is_one_of(status, GRAIN_NO_NAME, GRAIN_NOT_NOW));
}

static void go(grain_state *state, input *from) {
    uint64_t turns = byte_of(from) * 4u, used;
    grain_event event = grain_state_resume(state, turns, &used);
    grain_asked asked;
    char text[64];
    REQUIRE(used <= turns && event <= GRAIN_EVENT_OUT_OF_MEMORY);
    if (event == GRAIN_EVENT_FAULTED)
        REQUIRE(grain_state_fault(state, text, sizeof text) != 0);
    if (event != GRAIN_EVENT_RETURNED)
        return;
    grain_status status = grain_state_asked(state, &asked);
    REQUIRE(status == GRAIN_ACCEPTED || status == GRAIN_OUT_OF_MEMORY);
    if (status == GRAIN_ACCEPTED)
        try_again(state, &asked);
}

static void end_call(grain_state *state, input *from) {
    values given;
    read_values(from, &given);
    switch (byte_of(from) % 4) {
    case 0: REQUIRE(is_one_of(grain_state_answer(state, &given.all), GRAIN_NOT_NOW, GRAIN_NOT_NOW)); break;
    case 1: REQUIRE(is_one_of(grain_state_throw(state, &given.all), GRAIN_NOT_NOW, GRAIN_NOT_NOW)); break;
    case 2: REQUIRE(is_one_of(grain_state_receiver(state, &given.all), GRAIN_NOT_NOW, GRAIN_NOT_NOW)); break;
    default:
        REQUIRE(is_one_of(grain_state_fail(state, (const char *)given.texts, given.all.texts_len), GRAIN_NOT_NOW, GRAIN_NOT_NOW));
    }
}

static void use_variable(grain_state *state, input *from) {
    values given;
    grain_values found;
    read_values(from, &given);
    REQUIRE(is_one_of(grain_state_set(state, "shown", 5, &given.all), GRAIN_NO_NAME, GRAIN_NO_NAME));
    REQUIRE(is_one_of(grain_state_get(state, "shown", 5, &found), GRAIN_NO_NAME, GRAIN_NO_NAME));
}

static void call(grain_state *state, input *from) {
    grain_asked asked;
    char text[16];
    switch (byte_of(from) % 10) {
    case 0: REQUIRE(is_one_of(grain_state_begin(state, NULL, 0, NULL), GRAIN_NOT_NOW, GRAIN_NOT_NOW)); break;
    case 1:
    case 2: begin(state, from); break;
    case 3: go(state, from); break;
    case 4: end_call(state, from); break;
    case 5: use_variable(state, from); break;
    case 9: REQUIRE(is_one_of(grain_state_dropped(state, &asked.values), GRAIN_ACCEPTED, GRAIN_ACCEPTED)); break;
    case 6: REQUIRE(is_one_of(grain_state_asked(state, &asked), GRAIN_NOT_NOW, GRAIN_NOT_NOW)); break;
    case 7:
        grain_state_stop(state);
        (void)grain_state_printed(state, text, sizeof text);
        grain_state_take_printed(state);
        break;
    default: grain_state_reset(state);
    }
}

/* Runs the top level of an accepted file, whose calls of the host return unit. */
static void run_file(grain_state *state) {
    const grain_value row = grain_unit();
    const grain_values unit = {&row, 1, NULL, 0, 1};
    grain_asked asked;
    if (grain_state_begin(state, NULL, 0, NULL) != GRAIN_ACCEPTED)
        return;
    for (int i = 0; i < 20; i++) {
        switch (grain_state_resume(state, 100, NULL)) {
        case GRAIN_EVENT_PAUSED: break;
        case GRAIN_EVENT_CALLS: REQUIRE(is_one_of(grain_state_answer(state, &unit), GRAIN_ACCEPTED, GRAIN_ACCEPTED)); break;
        case GRAIN_EVENT_RETURNED: REQUIRE(is_one_of(grain_state_asked(state, &asked), GRAIN_ACCEPTED, GRAIN_ACCEPTED)); return;
        default: return;
        }
    }
}

static void try_calls(input from) {
    static unsigned runs;
    grain_state *state;
    REQUIRE(grain_state_compile(&state, script, sizeof script - 1, &bounds, NULL, 0) == GRAIN_ACCEPTED);
    REQUIRE(grain_state_register(state, "host", 4, 1) == GRAIN_ACCEPTED);
    left = runs++ % 4 == 1 ? byte_of(&from) : -1;
    for (int i = 0; i < MANY && from.left != 0; i++) {
        call(state, &from);
        REQUIRE(grain_state_memory(state) <= bounds.memory);
    }
    left = -1;
    grain_state_free(state);
}

enum { MODULES = 4 };

/* A text in a block of its own; NULL if it is empty. */
typedef struct {
    char *bytes;
    size_t len;
} piece;

static piece copied(const void *bytes, size_t len) {
    return (piece){len > 0 ? memcpy(grain_alloc(len, 1), bytes, len) : NULL, len};
}

static void drop(piece of) {
    if (of.bytes != NULL)
        grain_dealloc(of.bytes);
}

/* One of these texts, or the next part of the input. */
static piece read_text(input *from, const char *const *texts, size_t many) {
    size_t which = byte_of(from) % (many + 1);
    if (which < many)
        return copied(texts[which], strlen(texts[which]));
    size_t len = byte_of(from);
    if (len > from->left)
        len = from->left;
    from->at += len;
    from->left -= len;
    return copied(from->at - len, len);
}

/* A script with up to four modules. It is run if it is compiled. */
static void try_modules(input from) {
    static const char *const given_names[] = {"a", "b", "c", ""};
    static const char *const given[] = {"import \"a\" as m; m::f(1) + m::ONE", "import \"b\" as m; fn f(x) { m::f(x) }",
                                        "import \"c\" as m; export const ONE = 1; fn f(x) { m::f(x) }",
                                        "export const ONE = 2; fn f(x) { [x, global::ONE] }", "import \"\" as m; 1"};
    piece names[MODULES], texts[MODULES], main_text = read_text(&from, given, 5);
    grain_module modules[MODULES];
    size_t many = byte_of(&from) % (MODULES + 1);
    grain_state *state;
    char report[64];
    for (size_t i = 0; i < many; i++) {
        names[i] = read_text(&from, given_names, 4);
        texts[i] = read_text(&from, given, 5);
        modules[i] = (grain_module){names[i].bytes, names[i].len, texts[i].bytes, texts[i].len};
    }
    left = byte_of(&from) % 4 == 1 ? byte_of(&from) : -1;
    grain_status status = grain_state_compile_modules(&state, main_text.bytes, main_text.len, many > 0 ? modules : NULL, many,
                                                      &bounds, report, sizeof report);
    REQUIRE(status == GRAIN_ACCEPTED || status == GRAIN_NO_SCRIPT || status == GRAIN_OUT_OF_MEMORY);
    REQUIRE((status == GRAIN_ACCEPTED) == (state != NULL));
    if (state != NULL)
        run_file(state);
    left = -1;
    grain_state_free(state);
    drop(main_text);
    for (size_t i = 0; i < many; i++) {
        drop(names[i]);
        drop(texts[i]);
    }
}

int LLVMFuzzerTestOneInput(const uint8_t *given, size_t len);

int LLVMFuzzerTestOneInput(const uint8_t *given, size_t len) {
    static unsigned runs;
    grain_state *state;
    are_fenced = runs++ % 64 == 0;
    left = runs % 4 == 1 ? (long)(runs % 251) : -1;
    grain_status status = grain_state_load(&state, given, len, GRAIN_CAP_ALL, GRAIN_NO_LIMIT, NULL, &bounds, NULL, NULL);
    if (status == GRAIN_ACCEPTED)
        run_file(state);
    left = -1;
    grain_state_free(state);
    if (status == GRAIN_MALFORMED && len > 0 && given[0] % 4 == 3)
        try_modules((input){given + 1, len - 1});
    else if (status == GRAIN_MALFORMED)
        try_calls((input){given, len});
    REQUIRE(live == 0);
    return 0;
}
