/* Tries the calls of grain_engine.h: what each does, each status, and that a refused call changes nothing. Then each allocation is
 * refused in turn: nothing leaks, and the state can still be used. */
#include "grain_engine.h"

#include "checks.h"
#include <math.h>
#include <stdlib.h>
#include <string.h>

static long left = -1; /* how many allocations succeed still; all if it is negative */
static long live = 0;  /* how many blocks there are */

static bool is_refused(void) {
    if (left == 0)
        return true;
    left -= left > 0;
    return false;
}

void *grain_alloc(size_t size, size_t alignment) {
    void *block = is_refused() || alignment > 16 ? NULL : malloc(size);
    live += block != NULL;
    return block;
}

void *grain_realloc(void *block, size_t old_size, size_t size, size_t alignment) {
    (void)old_size;
    (void)alignment;
    return is_refused() ? NULL : realloc(block, size);
}

void grain_dealloc(void *block) {
    live--;
    free(block);
}

static const char script[] = "let calls = 0;\n"
                             "fn twice(n) { double(n) }\n"
                             "fn caught(n) { let x = 0; try { x = fetch(n); } catch (e) { x = e; } x }\n"
                             "fn uncaught() { fetch(1) }\n"
                             "fn endless() { loop { } }\n"
                             "fn deep(n) { deep(n + 1) }\n"
                             "fn kinds() { [(), true, -3, 'c', \"text\", 1..4, [1, [2]], #{a: 1, b: \"x\"}] }\n"
                             "fn same(x) { x }\n"
                             "fn say() { print(\"line\"); 1 }\n"
                             "fn known() { shown }\n"
                             "fn grown() { let x = 3; x.double(); x }\n"
                             "fn divide(n) {\n  1 / n\n}\n"
                             "fn half(x) { x / 2 }\n"
                             "calls + 40 + double(1)";

static grain_values one(const grain_value *row, const char *text) {
    return (grain_values){row, 1, (const uint8_t *)text, text != NULL ? strlen(text) : 0, 1};
}

static grain_status begin(grain_state *state, const char *name, const grain_values *arguments) {
    return grain_state_begin(state, name, name != NULL ? strlen(name) : 0, arguments);
}

static bool is_asked(grain_state *state, const char *name, int64_t argument) {
    grain_asked asked;
    return grain_state_asked(state, &asked) == GRAIN_ACCEPTED && asked.name_len == strlen(name) &&
           memcmp(asked.name, name, asked.name_len) == 0 && asked.values.count == 1 && asked.values.rows[0].number == argument;
}

static bool is_returned(grain_state *state, int64_t number) {
    grain_asked asked;
    return grain_state_resume(state, 1000, NULL) == GRAIN_EVENT_RETURNED && grain_state_asked(state, &asked) == GRAIN_ACCEPTED &&
           asked.values.count == 1 && asked.values.rows[0].tag == GRAIN_VALUE_INTEGER && asked.values.rows[0].number == number;
}

static grain_state *compiled(void) {
    static const grain_bounds bounds = {10000, 16, 50, 2, 64, 1 << 22};
    grain_state *state = NULL;
    CHECK(grain_state_compile(&state, script, sizeof script - 1, &bounds, NULL, 0) == GRAIN_ACCEPTED);
    CHECK(grain_state_register(state, "double", 6, 1) == GRAIN_ACCEPTED);
    CHECK(grain_state_register(state, "fetch", 5, 1) == GRAIN_ACCEPTED);
    return state;
}

static void try_errors(void) {
    char text[400], cut[9];
    grain_state *state;
    grain_bounds deep = GRAIN_BOUNDS_DEFAULT;
    CHECK(grain_state_compile(&state, "let x = ;", 9, NULL, text, sizeof text) == GRAIN_NO_SCRIPT && state == NULL);
    CHECK(strstr(text, "script:1:9: error") == text);
    CHECK(grain_state_compile(&state, "let x = ;", 9, NULL, cut, sizeof cut) == GRAIN_NO_SCRIPT && strcmp(cut, "script:1") == 0);
    CHECK(grain_state_compile(&state, "\xff", 1, NULL, text, sizeof text) == GRAIN_NO_SCRIPT);
    deep.value_depth = GRAIN_DEPTH_MAX + 1;
    CHECK(grain_state_compile(&state, "1", 1, &deep, text, sizeof text) == GRAIN_BAD_LIMIT && state == NULL);
    grain_read_error error;
    CHECK(grain_state_load(&state, NULL, 0, GRAIN_CAP_ALL, GRAIN_NO_LIMIT, NULL, NULL, &error, NULL) == GRAIN_MALFORMED);
    CHECK(state == NULL && error.cause == GRAIN_CAUSE_TRUNCATED);
    grain_state_free(NULL);
}

static grain_module module_of(const char *name, const char *source) {
    return (grain_module){name, name != NULL ? strlen(name) : 0, source, source != NULL ? strlen(source) : 0};
}

/* Whether a script that imports `a` isn't compiled with these modules, by a report that begins so. */
static bool is_refused_by(const grain_module *modules, size_t many, const char *report) {
    static const char text[] = "import \"a\" as a; a::f(1)";
    char found[400] = "";
    grain_state *state;
    grain_status status =
        grain_state_compile_modules(&state, text, sizeof text - 1, modules, many, NULL, found, sizeof found);
    if (strstr(found, report) != found)
        printf("%s\n", found);
    return status == GRAIN_NO_SCRIPT && state == NULL && strstr(found, report) == found;
}

static void try_wrong_modules(void) {
    static const char unknown[] = "script:1:8: error: there is no module of this name\n";
    static const char calls[] = "\nimport \"b\" as b;\nfn f(n) { b::g(n) }";
    grain_module unnamed = {"\xff", 1, NULL, 0}, unread = {"a", 1, "\xff", 1};
    grain_module others[] = {module_of("b", "fn g(n) { n }"), module_of(NULL, NULL)};
    grain_module broken[] = {module_of("b", "fn g(n) {\n let x = ;"), module_of("a", calls)};
    grain_module missing[] = {module_of("c", ""), module_of("a", calls)};
    grain_module twice[] = {module_of("a", "fn f(n) { n }"), module_of("b", ""), module_of("a", "")};
    CHECK(is_refused_by(NULL, 0, unknown) && is_refused_by(others, LENGTH(others), unknown));
    CHECK(is_refused_by(broken, LENGTH(broken), "b:2:10: error: an expression is expected here\n"));
    CHECK(is_refused_by(missing, LENGTH(missing), "a:2:8: error: there is no module of this name\n"));
    CHECK(is_refused_by(twice, LENGTH(twice), "a: error: two modules have this name\n"));
    CHECK(is_refused_by(&unnamed, 1, "module 0: error: the name is not UTF-8\n"));
    CHECK(is_refused_by(&unread, 1, "a: error: the text is not UTF-8\n"));
}

/* Modules are read until the call returns: their bytes are others afterwards. */
static void try_modules(void) {
    static const char text[] = "import \"a\" as a; fn g(n) { a::f(n) } a::f(1) + a::ONE";
    char name[] = "a", source[] = "import \"b\" as b; export const ONE = 1; fn f(n) { b::twice(n) }";
    grain_module modules[] = {module_of("b", "fn twice(n) { double(n) }"), module_of(name, source), module_of(NULL, NULL)};
    grain_bounds bounds = GRAIN_BOUNDS_DEFAULT;
    grain_value row = grain_integer(20);
    grain_values value = one(&row, NULL);
    grain_state *state;
    CHECK(grain_state_compile_modules(&state, text, sizeof text - 1, modules, LENGTH(modules), &bounds, NULL, 0) == GRAIN_ACCEPTED);
    memset(name, 'x', sizeof name - 1);
    memset(source, 'x', sizeof source - 1);
    memset(modules, 0, sizeof modules);
    CHECK(grain_state_register(state, "double", 6, 1) == GRAIN_ACCEPTED && begin(state, NULL, NULL) == GRAIN_ACCEPTED);
    CHECK(grain_state_resume(state, 1000, NULL) == GRAIN_EVENT_CALLS && is_asked(state, "double", 1));
    CHECK(grain_state_answer(state, &value) == GRAIN_ACCEPTED && is_returned(state, 21));
    CHECK(begin(state, "f", &value) == GRAIN_NO_NAME && begin(state, "g", &value) == GRAIN_ACCEPTED);
    CHECK(grain_state_resume(state, 1000, NULL) == GRAIN_EVENT_CALLS && is_asked(state, "double", 20));
    grain_state_free(state);
    CHECK(grain_state_compile_modules(&state, "1", 1, NULL, 0, NULL, NULL, 0) == GRAIN_ACCEPTED);
    grain_state_free(state);
    bounds.value_depth = GRAIN_DEPTH_MAX + 1;
    CHECK(grain_state_compile_modules(&state, "1", 1, NULL, 0, &bounds, NULL, 0) == GRAIN_BAD_LIMIT && state == NULL);
    CHECK(grain_state_compile_modules(&state, "1", 1, NULL, SIZE_MAX, NULL, NULL, 0) == GRAIN_OUT_OF_MEMORY && state == NULL);
    try_wrong_modules();
}

/* What the table takes counts for the state until it is compiled. The names are such that a search from the first on would be slow. */
static void try_many_modules(void) {
    enum { MANY = 20000 };
    static char names[MANY][16];
    static grain_module modules[MANY];
    grain_bounds bounds = GRAIN_BOUNDS_DEFAULT;
    grain_state *state, *other;
    for (int i = 0; i < MANY; i++) {
        snprintf(names[i], sizeof names[i], "xxx%05d", i);
        modules[i] = module_of(names[i], "fn f() { 5 }");
    }
    static const char text[] = "import \"xxx12345\" as m; m::f()";
    CHECK(grain_state_compile_modules(&state, text, sizeof text - 1, modules, MANY, &bounds, NULL, 0) == GRAIN_ACCEPTED);
    CHECK(begin(state, NULL, NULL) == GRAIN_ACCEPTED && is_returned(state, 5));
    CHECK(grain_state_compile(&other, "5", 1, NULL, NULL, 0) == GRAIN_ACCEPTED);
    CHECK(grain_state_memory(state) < grain_state_memory(other) + 4096);
    grain_state_free(other);
    grain_state_free(state);
    bounds.memory = MANY * sizeof *modules;
    CHECK(grain_state_compile_modules(&state, text, sizeof text - 1, modules, MANY, &bounds, NULL, 0) == GRAIN_OUT_OF_MEMORY);
    CHECK(state == NULL && live == 0);
}

/* Runs and calls: what comes in which order, and what isn't possible then. */
static void try_runs(grain_state *state) {
    grain_value row = grain_integer(21), answer = grain_integer(42);
    grain_values argument = one(&row, NULL), value = one(&answer, NULL);
    uint64_t used = 99;
    grain_asked asked;
    CHECK(grain_state_resume(state, 10, &used) == GRAIN_EVENT_IDLE && used == 0);
    CHECK(grain_state_answer(state, &value) == GRAIN_NOT_NOW && grain_state_asked(state, &asked) == GRAIN_NOT_NOW);
    CHECK(begin(state, "twice", NULL) == GRAIN_NO_NAME && begin(state, "nothing", NULL) == GRAIN_NO_NAME);
    CHECK(begin(state, "twice", &argument) == GRAIN_ACCEPTED && begin(state, NULL, NULL) == GRAIN_NOT_NOW);
    CHECK(grain_state_resume(state, 1000, &used) == GRAIN_EVENT_CALLS && is_asked(state, "double", 21));
    CHECK(grain_state_resume(state, 1000, &used) == GRAIN_EVENT_CALLS && used == 0);
    /* Another run meanwhile, but not of the top level. */
    CHECK(begin(state, NULL, NULL) == GRAIN_NOT_NOW && begin(state, "same", &value) == GRAIN_ACCEPTED && is_returned(state, 42));
    CHECK(grain_state_resume(state, 1000, &used) == GRAIN_EVENT_CALLS && used == 0 && is_asked(state, "double", 21));
    CHECK(grain_state_answer(state, &value) == GRAIN_ACCEPTED && grain_state_answer(state, &value) == GRAIN_NOT_NOW);
    CHECK(is_returned(state, 42));
    CHECK(begin(state, NULL, NULL) == GRAIN_ACCEPTED && grain_state_resume(state, 1000, NULL) == GRAIN_EVENT_CALLS);
    answer.number = 2;
    CHECK(grain_state_answer(state, &value) == GRAIN_ACCEPTED && is_returned(state, 42));
    /* A method changes its receiver. */
    CHECK(grain_state_receiver(state, &value) == GRAIN_NOT_NOW && begin(state, "grown", NULL) == GRAIN_ACCEPTED);
    CHECK(grain_state_resume(state, 1000, NULL) == GRAIN_EVENT_CALLS && is_asked(state, "double", 3));
    answer.number = 6;
    CHECK(grain_state_receiver(state, &value) == GRAIN_ACCEPTED && grain_state_answer(state, &value) == GRAIN_ACCEPTED);
    CHECK(is_returned(state, 6) && begin(state, "endless", NULL) == GRAIN_ACCEPTED);
    CHECK(grain_state_resume(state, 500, &used) == GRAIN_EVENT_PAUSED && used == 500);
    CHECK(begin(state, "endless", NULL) == GRAIN_NOT_NOW);
    grain_state_stop(state);
    CHECK(grain_state_resume(state, 500, &used) == GRAIN_EVENT_IDLE);
}

static bool faults_with(grain_state *state, const char *text) {
    char fault[500];
    if (grain_state_resume(state, 100000, NULL) != GRAIN_EVENT_FAULTED || grain_state_fault(state, fault, sizeof fault) == 0)
        return false;
    if (strstr(fault, text) == NULL)
        printf("%s\n", fault);
    return strstr(fault, text) != NULL;
}

/* Whether the last fault is of this kind, in this line. */
static bool is_failure(grain_state *state, uint32_t kind, uint32_t line, uint32_t column) {
    grain_failure failure = {0, 0, 0, 0};
    return grain_state_failure(state, &failure) == GRAIN_ACCEPTED && failure.kind == kind && failure.line == line &&
           failure.column == column && failure.at > 0;
}

/* What a function throws that has no handler is shown. */
static void try_thrown(grain_state *state) {
    grain_value rows[] = {{GRAIN_VALUE_ARRAY, 1, 0}, grain_integer(5)};
    grain_values value = {rows, 2, NULL, 0, 1};
    grain_asked asked;
    CHECK(begin(state, "uncaught", NULL) == GRAIN_ACCEPTED && grain_state_resume(state, 1000, NULL) == GRAIN_EVENT_CALLS);
    CHECK(grain_state_throw(state, &value) == GRAIN_ACCEPTED && grain_state_asked(state, &asked) == GRAIN_NOT_NOW);
    CHECK(grain_state_resume(state, 1000, NULL) == GRAIN_EVENT_FAULTED && is_failure(state, GRAIN_FAULT_THROWN, 4, 17));
    CHECK(grain_state_asked(state, &asked) == GRAIN_ACCEPTED && asked.name_len == 0 && asked.values.count == 1);
    CHECK(asked.values.rows_len == 2 && asked.values.rows[0].tag == GRAIN_VALUE_ARRAY && asked.values.rows[1].number == 5);
}

static void try_faults(grain_state *state) {
    grain_value row = grain_integer(0), thrown = grain_integer(7);
    grain_values argument = one(&row, NULL), value = one(&thrown, NULL);
    grain_asked asked;
    CHECK(begin(state, "divide", &argument) == GRAIN_ACCEPTED && faults_with(state, "(line 13, position 5)"));
    CHECK(is_failure(state, GRAIN_FAULT_DIVISION_BY_ZERO, 13, 5) && grain_state_asked(state, &asked) == GRAIN_NOT_NOW);
    CHECK(begin(state, "deep", &argument) == GRAIN_ACCEPTED && faults_with(state, "called from deep:6:"));
    CHECK(is_failure(state, GRAIN_FAULT_TOO_DEEP, 6, 14));
    try_thrown(state);
    CHECK(begin(state, "caught", &argument) == GRAIN_ACCEPTED && grain_state_resume(state, 1000, NULL) == GRAIN_EVENT_CALLS);
    CHECK(grain_state_throw(state, &value) == GRAIN_ACCEPTED && is_returned(state, 7));
    CHECK(begin(state, "uncaught", NULL) == GRAIN_ACCEPTED && grain_state_resume(state, 1000, NULL) == GRAIN_EVENT_CALLS);
    CHECK(grain_state_fail(state, "\xff", 1) == GRAIN_BAD_VALUE);
    CHECK(grain_state_fail(state, "no network", 10) == GRAIN_ACCEPTED && begin(state, "say", NULL) == GRAIN_NOT_NOW);
    CHECK(faults_with(state, "no network"));
    CHECK(begin(state, "caught", &argument) == GRAIN_ACCEPTED && grain_state_resume(state, 1000, NULL) == GRAIN_EVENT_CALLS);
    CHECK(grain_state_fail(state, "no network", 10) == GRAIN_ACCEPTED && faults_with(state, "no network"));
}

/* Each kind of value goes to the host and back, and is the same. */
static void try_values(grain_state *state) {
    grain_asked asked;
    grain_value rows[32], bad = {99, 0, 0};
    uint8_t texts[32];
    CHECK(begin(state, "kinds", NULL) == GRAIN_ACCEPTED && grain_state_resume(state, 1000, NULL) == GRAIN_EVENT_RETURNED);
    CHECK(grain_state_asked(state, &asked) == GRAIN_ACCEPTED && asked.values.rows_len == 18 && asked.values.texts_len == 7);
    if (asked.values.rows_len > LENGTH(rows) || asked.values.texts_len > LENGTH(texts))
        return;
    grain_values copy = {memcpy(rows, asked.values.rows, asked.values.rows_len * sizeof *rows), asked.values.rows_len,
                         memcpy(texts, asked.values.texts, asked.values.texts_len), asked.values.texts_len, 1};
    CHECK(begin(state, "same", &copy) == GRAIN_ACCEPTED && grain_state_resume(state, 1000, NULL) == GRAIN_EVENT_RETURNED);
    CHECK(grain_state_asked(state, &asked) == GRAIN_ACCEPTED && asked.values.rows_len == copy.rows_len &&
          memcmp(asked.values.rows, rows, copy.rows_len * sizeof *rows) == 0 && memcmp(asked.values.texts, texts, copy.texts_len) == 0);
    grain_values wrongs[] = {one(&bad, NULL), {rows, 1, NULL, 0, 2}, {rows, copy.rows_len - 1, texts, copy.texts_len, 1}, {rows, 0, NULL, 0, 1}};
    for (size_t i = 0; i < LENGTH(wrongs); i++)
        CHECK(begin(state, "same", &wrongs[i]) == GRAIN_BAD_VALUE);
    CHECK(grain_state_resume(state, 1, NULL) == GRAIN_EVENT_IDLE);
}

/* What a function of the script returns for a float. */
static grain_value float_of(grain_state *state, const char *name, double number) {
    grain_value row = grain_float(number);
    grain_values argument = one(&row, NULL);
    grain_asked asked;
    CHECK(begin(state, name, &argument) == GRAIN_ACCEPTED && grain_state_resume(state, 1000, NULL) == GRAIN_EVENT_RETURNED);
    CHECK(grain_state_asked(state, &asked) == GRAIN_ACCEPTED && asked.values.count == 1 && asked.values.rows_len == 1);
    CHECK(asked.values.rows[0].tag == GRAIN_VALUE_FLOAT && asked.values.rows[0].count == 0);
    return asked.values.rows[0];
}

/* The bits of a float cross, its sign among them; those of each NaN become those of one. */
static void try_floats(grain_state *state) {
    static const double numbers[] = {0.0, -0.0, 0.1, -1.5, 1e308, 4.9e-324, HUGE_VAL, -HUGE_VAL};
    for (size_t i = 0; i < LENGTH(numbers); i++)
        CHECK(float_of(state, "same", numbers[i]).number == grain_float(numbers[i]).number);
    static const int64_t nans[] = {0x7ff8000000000000, 0x7ff0000000000001, -1, -0x8000000000000};
    for (size_t i = 0; i < LENGTH(nans); i++) {
        grain_value row = {GRAIN_VALUE_FLOAT, 0, nans[i]};
        CHECK(float_of(state, "same", grain_double(&row)).number == 0x7ff8000000000000);
    }
    grain_value quarter = float_of(state, "half", 0.5), used = grain_float(1.0);
    CHECK(grain_double(&quarter) == 0.25);
    used.count = 1;
    grain_values bad = one(&used, NULL);
    CHECK(begin(state, "same", &bad) == GRAIN_BAD_VALUE);
}

/* A value of the host's own is in use until a variable has another value. */
static void try_foreign(grain_state *state) {
    grain_value rows[4], other = grain_unit();
    grain_foreign(rows, 3, -17);
    grain_values value = {rows, 4, NULL, 0, 1}, cut = {rows, 3, NULL, 0, 1}, unit = one(&other, NULL), found;
    CHECK(grain_state_set(state, "absent", 6, &value) == GRAIN_NO_NAME && grain_state_set(state, "shown", 5, &cut) == GRAIN_BAD_VALUE);
    CHECK(grain_state_set(state, "shown", 5, &value) == GRAIN_ACCEPTED);
    CHECK(begin(state, "same", &value) == GRAIN_ACCEPTED && grain_state_resume(state, 1000, NULL) == GRAIN_EVENT_RETURNED);
    CHECK(grain_state_dropped(state, &found) == GRAIN_ACCEPTED && found.count == 1 && found.rows_len == 4);
    CHECK(memcmp(found.rows, rows, sizeof rows) == 0 && found.rows[0].tag == GRAIN_VALUE_FOREIGN);
    CHECK(grain_state_dropped(state, &found) == GRAIN_ACCEPTED && found.count == 0);
    CHECK(grain_state_set(state, "shown", 5, &unit) == GRAIN_ACCEPTED);
    CHECK(grain_state_dropped(state, &found) == GRAIN_ACCEPTED && found.count == 1 && found.rows[3].number == -17);
    grain_state_reset(state);
}

static void try_variables(grain_state *state) {
    grain_value row = grain_integer(5);
    grain_values value = one(&row, NULL), found;
    char text[70];
    CHECK(grain_state_get(state, "shown", 5, &found) == GRAIN_NO_NAME && grain_state_set(state, "absent", 6, &value) == GRAIN_NO_NAME);
    CHECK(grain_state_set(state, "shown", 5, &value) == GRAIN_ACCEPTED);
    CHECK(grain_state_get(state, "shown", 5, &found) == GRAIN_ACCEPTED && found.count == 1 && found.rows[0].number == 5);
    CHECK(begin(state, "known", NULL) == GRAIN_ACCEPTED && is_returned(state, 5));
    CHECK(begin(state, "say", NULL) == GRAIN_ACCEPTED && is_returned(state, 1));
    CHECK(grain_state_printed(state, text, sizeof text) == 5 && strcmp(text, "line\n") == 0);
    grain_state_take_printed(state);
    CHECK(grain_state_printed(state, NULL, 0) == 0);
    for (int i = 0; i < 12; i++)
        CHECK(begin(state, "say", NULL) == GRAIN_ACCEPTED && is_returned(state, 1));
    CHECK(begin(state, "say", NULL) == GRAIN_ACCEPTED && faults_with(state, "Too much output"));
    grain_state_reset(state);
    grain_failure failure;
    CHECK(grain_state_failure(state, &failure) == GRAIN_NOT_NOW);
    CHECK(grain_state_get(state, "shown", 5, &found) == GRAIN_NO_NAME && grain_state_printed(state, NULL, 0) == 0);
}

static void try_files(grain_state *state) {
    static uint8_t bytes[4096];
    grain_room file = {NULL, 0, 0};
    grain_state *loaded, *another;
    grain_report report;
    CHECK(grain_state_file(state, &file) == GRAIN_SHORT && file.size <= sizeof bytes);
    file = (grain_room){bytes, sizeof bytes, 0};
    CHECK(grain_state_file(state, &file) == GRAIN_ACCEPTED);
    CHECK(grain_state_load(&loaded, bytes, file.size, GRAIN_CAP_ALL, GRAIN_NO_LIMIT, NULL, NULL, NULL, NULL) == GRAIN_ACCEPTED);
    CHECK(grain_state_another(&another, loaded, NULL) == GRAIN_ACCEPTED);
    CHECK(begin(another, "say", NULL) == GRAIN_ACCEPTED && is_returned(another, 1) && grain_state_printed(loaded, NULL, 0) == 0);
    grain_state_free(loaded);
    CHECK(begin(another, "say", NULL) == GRAIN_ACCEPTED && is_returned(another, 1));
    grain_state_free(another);
    CHECK(grain_state_load(&loaded, bytes, file.size, 0, GRAIN_NO_LIMIT, NULL, NULL, NULL, &report) == GRAIN_REFUSED);
    CHECK(loaded == NULL && report.refusal.flaw == GRAIN_FLAW_DECLARED_CAPS);
    CHECK(grain_state_load(&loaded, bytes, file.size, GRAIN_CAP_ALL, 1, NULL, NULL, NULL, NULL) == GRAIN_TOO_MUCH_WORK);
}

/* A state takes no more memory than its bounds say, and can be used when it has tried to. */
static void try_memory(void) {
    static const char text[] = "fn fill() { let a = []; loop { a.push([a.len()]); } } fn same(x) { x }";
    grain_bounds bounds = GRAIN_BOUNDS_DEFAULT;
    grain_value row = grain_integer(3);
    grain_values value = one(&row, NULL);
    grain_state *state, *other;
    bounds.memory = 1000;
    CHECK(grain_state_compile(&state, text, sizeof text - 1, &bounds, NULL, 0) == GRAIN_OUT_OF_MEMORY && state == NULL);
    bounds.memory = 1 << 20;
    CHECK(grain_state_compile(&state, text, sizeof text - 1, &bounds, NULL, 0) == GRAIN_ACCEPTED);
    CHECK(grain_state_another(&other, state, &bounds) == GRAIN_ACCEPTED);
    size_t before = grain_state_memory(state), fewer = grain_state_memory(other);
    CHECK(before > 0 && fewer < before);
    for (int i = 0; i < 2; i++) {
        CHECK(begin(state, "fill", NULL) == GRAIN_ACCEPTED);
        CHECK(grain_state_resume(state, 1000000, NULL) == GRAIN_EVENT_OUT_OF_MEMORY && grain_state_memory(state) <= bounds.memory);
        CHECK(begin(state, "same", &value) == GRAIN_ACCEPTED && is_returned(state, 3));
        CHECK(begin(other, "same", &value) == GRAIN_ACCEPTED && is_returned(other, 3));
    }
    grain_state_reset(state);
    CHECK(grain_state_memory(state) < before + 4096);
    /* The program that they share is freed with the last of them. */
    grain_state_free(state);
    CHECK(begin(other, "same", &value) == GRAIN_ACCEPTED && is_returned(other, 3));
    grain_state_free(other);
}

/* Compiles, calls and answers until something is refused; whether nothing was. */
static bool runs_through(const char *text, const grain_module *modules, size_t many) {
    grain_value row = grain_integer(4);
    grain_values value = one(&row, NULL);
    grain_asked asked;
    grain_state *state;
    grain_status status = many > 0 ? grain_state_compile_modules(&state, text, strlen(text), modules, many, NULL, NULL, 0)
                                   : grain_state_compile(&state, text, strlen(text), NULL, NULL, 0);
    if (status != GRAIN_ACCEPTED) {
        CHECK(status == GRAIN_OUT_OF_MEMORY && state == NULL);
        return false;
    }
    bool well = grain_state_register(state, "double", 6, 1) == GRAIN_ACCEPTED && begin(state, "f", &value) == GRAIN_ACCEPTED &&
                grain_state_resume(state, 100, NULL) == GRAIN_EVENT_CALLS && grain_state_asked(state, &asked) == GRAIN_ACCEPTED &&
                grain_state_answer(state, &value) == GRAIN_ACCEPTED && grain_state_resume(state, 1000, NULL) == GRAIN_EVENT_RETURNED &&
                grain_state_asked(state, &asked) == GRAIN_ACCEPTED;
    if (!well) {
        left = -1;
        grain_state_reset(state);
        CHECK(grain_state_register(state, "double", 6, 1) == GRAIN_ACCEPTED && begin(state, "f", &value) == GRAIN_ACCEPTED);
        CHECK(grain_state_resume(state, 100, NULL) == GRAIN_EVENT_CALLS);
    }
    grain_state_free(state);
    return well;
}

static void try_refused(const char *text, const grain_module *modules, size_t many) {
    long refused = 0;
    bool well = false;
    for (; !well && refused < 100000; refused++) {
        left = refused;
        well = runs_through(text, modules, many);
        left = -1;
        CHECK(live == 0);
    }
    CHECK(refused > 50 && refused < 100000);
    printf("%ld allocations refused\n", refused - 1);
}

static void try_all_refused(void) {
    grain_module modules[] = {module_of("a", "import \"b\" as b; fn g(n) { let a = [n, b::TEXT]; a.push(double(n)); print(a); a }"),
                              module_of("b", "export const TEXT = \"text\";"), module_of("c", "fn g() { }")};
    try_refused("fn f(n) { let a = [n, \"text\"]; a.push(double(n)); print(a); a } f(1)", NULL, 0);
    try_refused("import \"a\" as a; fn f(n) { a::g(n) } f(1)", modules, LENGTH(modules));
}

int main(void) {
    try_errors();
    try_modules();
    try_many_modules();
    grain_state *state = compiled();
    try_runs(state);
    try_faults(state);
    try_values(state);
    try_floats(state);
    try_foreign(state);
    try_variables(state);
    try_files(state);
    grain_state_free(state);
    try_memory();
    CHECK(live == 0);
    try_all_refused();
    return wrong != 0;
}
