/* Listings: their text, what stops them, and that no name puts anything but printable ASCII into one. */
#include "grain.h"

#include "checks.h"

static char text[1 << 16];
static size_t length, puts_left, puts_given = SIZE_MAX, stops;

/* Appends to the text, as often as that is left. */
static int append(void *context, const char *part, size_t size) {
    CHECK(context == &length && size != 0);
    if (puts_left == 0) {
        stops++;
        return 1;
    }
    puts_left--;
    for (size_t i = 0; i < size && length < sizeof text; i++)
        text[length++] = part[i];
    return 0;
}

static grain_status list_after(uint16_t caps, const grain_program *program, size_t chunk, size_t puts) {
    length = 0;
    puts_left = puts;
    stops = 0;
    return grain_listing(caps, program, chunk, append, &length);
}

static grain_status list(uint16_t caps, const grain_program *program) {
    return list_after(caps, program, 0, puts_given);
}

static bool is_text(const char *wanted) {
    size_t i = 0;
    while (i < length && wanted[i] != 0 && text[i] == wanted[i])
        i++;
    bool is = i == length && wanted[i] == 0;
    if (!is)
        printf("%.*s", (int)length, text);
    return is;
}

static bool has(const char *wanted) {
    for (size_t from = 0; from < length; from++) {
        size_t i = 0;
        while (wanted[i] != 0 && from + i < length && text[from + i] == wanted[i])
            i++;
        if (wanted[i] == 0)
            return true;
    }
    return false;
}

static grain_program program_of(const uint8_t *code, size_t code_len, const grain_chunk *chunks) {
    return (grain_program){code, code_len, chunks, 1, GRAIN_POOLS_NONE};
}

/* A loop that leaves an operand each round. */
static const uint8_t loop_code[] = {0x02, 0x1d, 0x1e, 0x0c, 0, 0, 0, 0x0c, 0x02, 0, 0, 0, 0x02, 0x13};
static const grain_chunk loop_chunks[] = {{0, sizeof loop_code, 8}};

static void conflicts_are_listed(void) {
    grain_program program = program_of(loop_code, sizeof loop_code, loop_chunks);
    CHECK(list(GRAIN_CAP_ALL, &program) == GRAIN_REFUSED);
    CHECK(is_text("from 0 to 14, declares 8: refused depth-conflict at=2 expected=0 found=1\n"
                  "  address  bytes           operands iterators  bases     instruction\n"
                  "        0  02                     0         0  -         UNIT\n"
                  "        1  1d                     1         0  -         ITER_INIT\n"
                  "        2  1e0c000000             0         1  -         ITER_NEXT 12  <== here\n"
                  "        7  0c02000000             1         1  -         JUMP 2\n"
                  "       12  02                not visited                 UNIT\n"
                  "       13  13                not visited                 RETURN\n"
                  "  depth-conflict at=2 expected=0 found=1\n"
                  "  A path there:\n"
                  "        0  02                     0         0  -         UNIT\n"
                  "        1  1d                     1         0  -         ITER_INIT\n"
                  "        2  1e0c000000             0         1  -         ITER_NEXT 12\n"
                  "  Another path there:\n"
                  "        0  02                     0         0  -         UNIT\n"
                  "        1  1d                     1         0  -         ITER_INIT\n"
                  "        2  1e0c000000             0         1  -         ITER_NEXT 12\n"
                  "        7  0c02000000             1         1  -         JUMP 2\n"
                  "        2  1e0c000000             1         1  -         ITER_NEXT 12\n"));
}

/* Six handlers, each armed with an operand more, and code that is never reached. */
static void handlers_are_listed(void) {
    static uint8_t code[6 * 6 + 3];
    static const grain_chunk chunks[] = {{0, sizeof code, 9}};
    grain_program program = program_of(code, sizeof code, chunks);
    for (size_t i = 0; i < 6; i++) {
        code[6 * i] = GRAIN_TAG_UNIT;
        code[6 * i + 1] = GRAIN_TAG_PUSH_HANDLER;
        code[6 * i + 2] = (uint8_t)(6 * i + 6);
    }
    code[36] = code[38] = GRAIN_TAG_RETURN;
    code[37] = GRAIN_TAG_TICK;
    CHECK(list(GRAIN_CAP_ALL, &program) == GRAIN_ACCEPTED);
    CHECK(has("from 0 to 39, declares 9: passes\n"));
    CHECK(has("\n        7  230c000000             2         0  1/0       PUSH_HANDLER 12\n"));
    CHECK(has("\n       24  02                     4         0  4/0 3/0 2/0 1/0  UNIT\n"));
    CHECK(has("\n       30  02                     5         0  5/0 4/0 3/0 2/0 and 1 more  UNIT\n"));
    CHECK(has("\n       36  13                     6         0  6/0 5/0 4/0 3/0 and 2 more  RETURN\n"));
    CHECK(has("\n       37  12                unreachable                 TICK\n"));
    CHECK(!has("<== here") && !has("path there"));
}

/* What is refused outside the chunk is said first. */
static void refused_programs_are_said(void) {
    static const grain_constant needy[] = {{1, GRAIN_CAP_ARRAY}};
    static const uint8_t bad[] = {0x02, 0xff};
    static const grain_chunk outside[] = {{1, 99, 0}}, inside[] = {{3, 7, 0}};
    grain_program program = program_of(loop_code + 12, 2, (const grain_chunk[]){{0, 2, 1}});
    program.pools.constants = needy;
    program.pools.constants_len = 1;
    CHECK(list(GRAIN_CAP_NONE, &program) == GRAIN_ACCEPTED);
    CHECK(is_text("the program is refused: missing-caps at=0 missing=0002\n"
                  "from 0 to 2, declares 1: passes\n"
                  "  address  bytes           operands iterators  bases     instruction\n"
                  "        0  02                     0         0  -         UNIT\n"
                  "        1  13                     1         0  -         RETURN\n"));
    program = program_of(bad, sizeof bad, (const grain_chunk[]){{0, 1, 1}});
    CHECK(list(GRAIN_CAP_ALL, &program) == GRAIN_BAD_CODE && is_text("the program is refused: undecodable at=1\n"));
    program = program_of(loop_code, sizeof loop_code, outside);
    CHECK(list(GRAIN_CAP_ALL, &program) == GRAIN_REFUSED);
    CHECK(is_text("from 1 to 99, declares 0: refused chunk-out-of-range entry=1 end=99 len=14\n"));
    program.chunks = inside;
    CHECK(list(GRAIN_CAP_ALL, &program) == GRAIN_REFUSED);
    CHECK(is_text("from 3 to 7, declares 0: refused jump-into-an-instruction at=3 target=3\n"));
    program.pools.constants_len = 1;
    program.pools.constants = (const grain_constant[]){{2, 0}};
    CHECK(list(GRAIN_CAP_ALL, &program) == GRAIN_NOT_FLAT && length == 0);
    program.pools.constants_len = 0;
    CHECK(list_after(GRAIN_CAP_ALL, &program, 1, SIZE_MAX) == GRAIN_NO_CHUNK && length == 0);
}

/* A flaw without an address of its own is marked where its path ends. */
static void flaws_are_marked_at_the_end_of_the_path(void) {
    static const uint8_t code[] = {0x02, 0x02, 0x0b, 0x0b};
    static const grain_chunk chunks[] = {{0, 4, 9}};
    grain_program program = program_of(code, sizeof code, chunks);
    CHECK(list(GRAIN_CAP_ALL, &program) == GRAIN_REFUSED && has("falls-off-the-end\n"));
    CHECK(has("\n        3  0b                     1         0  -         POP  <== here\n"));
}

/* Each answer of the caller's function that isn't 0 ends the listing at once. */
static void listings_are_stopped(void) {
    grain_program program = program_of(loop_code, sizeof loop_code, loop_chunks);
    CHECK(list(GRAIN_CAP_ALL, &program) == GRAIN_REFUSED);
    size_t puts = SIZE_MAX - puts_left;
    for (size_t i = 0; i < puts; i++)
        CHECK(list_after(GRAIN_CAP_ALL, &program, 0, i) == GRAIN_STOPPED && stops == 1);
    CHECK(list_after(GRAIN_CAP_ALL, &program, 0, puts) == GRAIN_REFUSED);
}

/* A program of one instruction that names this name. */
static grain_status list_name(const uint8_t *name, uint32_t size) {
    static const uint8_t code[] = {GRAIN_TAG_LOAD_NAMED, 0, 0, GRAIN_TAG_RETURN};
    static const grain_chunk chunks[] = {{0, sizeof code, 1}};
    grain_program program = program_of(code, sizeof code, chunks);
    uint32_t starts[] = {0, size};
    program.pools.names = name;
    program.pools.names_len = size;
    program.pools.starts = starts;
    program.pools.starts_len = 2;
    return list(GRAIN_CAP_ALL, &program);
}

/* Whether the listing has four lines of printable ASCII, so that the name forged none. */
static bool is_clean(void) {
    size_t lines = 0, quotes = 0;
    for (size_t i = 0; i < length; i++) {
        lines += text[i] == '\n';
        quotes += text[i] == '`';
        if (text[i] != '\n' && (text[i] < ' ' || text[i] > '~'))
            return false;
    }
    return lines == 4 && quotes == 2;
}

static void names_are_escaped(void) {
    static const char *const hex = "0123456789abcdef";
    for (unsigned byte = 0; byte < 128; byte++) {
        uint8_t name[] = {'a', (uint8_t)byte, 'z'};
        bool is_plain = byte >= ' ' && byte <= '~' && byte != '`' && byte != '\\';
        char shown[] = {'`', 'a', '\\', 'x', hex[byte >> 4], hex[byte & 15], 'z', '`', 0};
        char plain[] = {'`', 'a', (char)byte, 'z', '`', 0};
        CHECK(list_name(name, 3) == GRAIN_ACCEPTED && is_clean() && has(is_plain ? plain : shown));
    }
    CHECK(has("LOAD_NAMED 0 `a\\x7fz`\n"));
    /* The marks of direction, a non-breaking space, the line separators, C1 controls, and a smile. */
    static const char *const marks[] = {
        "\xd8\x9c", "\xe2\x80\x8e", "\xe2\x80\x8f", "\xe2\x80\xaa", "\xe2\x80\xab", "\xe2\x80\xac", "\xe2\x80\xad",
        "\xe2\x80\xae", "\xe2\x81\xa6", "\xe2\x81\xa7", "\xe2\x81\xa8", "\xe2\x81\xa9", "\xc2\xa0", "\xe2\x80\xa8",
        "\xe2\x80\xa9", "\xc2\x85", "\xc2\x9b", "\xf0\x9f\x99\x82",
    };
    for (size_t i = 0; i < LENGTH(marks); i++) {
        uint32_t size = 0;
        while (marks[i][size] != 0)
            size++;
        CHECK(list_name((const uint8_t *)marks[i], size) == GRAIN_ACCEPTED && is_clean() && has("\\x"));
    }
    static const char forged[] = "a`\n        3  13                     1         0  -         RETURN\n"
                                 "from 0 to 6: passes\n\x1b[8m";
    CHECK(list_name((const uint8_t *)forged, sizeof forged - 1) == GRAIN_ACCEPTED && is_clean());
    CHECK(has("LOAD_NAMED 0 `a\\x60\\x0a        3  13"));
}

static void long_and_empty_names_are_listed(void) {
    static uint8_t name[1000];
    for (size_t i = 0; i < sizeof name; i++)
        name[i] = '\n';
    CHECK(list_name(name, sizeof name) == GRAIN_ACCEPTED && is_clean());
    CHECK(has("\\x0a` and 936 more bytes\n") && length < 700);
    CHECK(list_name(name, 64) == GRAIN_ACCEPTED && has("\\x0a`\n"));
    for (puts_given = 0; list_name(name, 64) == GRAIN_STOPPED; puts_given++)
        CHECK(stops == 1); /* also in the middle of a line */
    CHECK(puts_given > 4 && stops == 0);
    puts_given = SIZE_MAX;
    static const grain_program nothing;
    CHECK(list(GRAIN_CAP_NONE, &nothing) == GRAIN_NO_CHUNK && length == 0);
    CHECK(list_name(NULL, 0) == GRAIN_ACCEPTED && has("LOAD_NAMED 0 ``\n"));
}

int main(void) {
    conflicts_are_listed();
    handlers_are_listed();
    refused_programs_are_said();
    flaws_are_marked_at_the_end_of_the_path();
    listings_are_stopped();
    names_are_escaped();
    long_and_empty_names_are_listed();
    printf("listings: %d wrong\n", wrong);
    return wrong != 0;
}
