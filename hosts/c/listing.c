/* grain_listing: the state at each instruction of a chunk, and paths to its flaw, as text.
 *
 * Time and memory grow with the chunk and its explanation. So the innermost bases alone are written, and the first bytes of
 * long names: both can appear at many instructions. */
#include "grain.h"

#define BASES_SHOWN 4
#define NAME_BYTES_SHOWN 64

/* How many bytes an instruction with this tag takes; 0 where there is none. */
#define WIDTH(tag, name, width, fields, quiet) [tag] = width,
static const uint8_t widths[256] = {GRAIN_INSTRUCTIONS(WIDTH)};
#undef WIDTH

/* What is written, through a buffer. */
typedef struct {
    grain_put *put;
    void *context;
    bool is_stopped;
    size_t column; /* how many bytes of the line are written */
    size_t length;
    char buffer[256];
} writer;

typedef struct {
    writer out;
    const grain_program *program;
    grain_chunk chunk;
    bool is_refused;
    grain_explanation found;
    size_t room;       /* how many rows of one kind there is room for, and how many bases */
    grain_row *rows;   /* three times as many as there is room for */
    grain_base *bases;
    uint32_t *armed; /* for each base how many handlers are armed */
} listing;

static void flush(writer *out) {
    if (out->length != 0 && !out->is_stopped)
        out->is_stopped = out->put(out->context, out->buffer, out->length) != 0;
    out->length = 0;
}

static void write_byte(writer *out, char byte) {
    if (out->length == sizeof out->buffer)
        flush(out);
    out->buffer[out->length++] = byte;
    out->column++;
}

static void write_text(writer *out, const char *text) {
    for (; *text != 0; text++)
        write_byte(out, *text);
}

static void end_line(writer *out) {
    write_byte(out, '\n');
    flush(out);
    out->column = 0;
}

static void pad_to(writer *out, size_t column) {
    while (out->column < column)
        write_byte(out, ' ');
}

/* Writes a number so that it ends at the column, or after it where it has too many digits. */
static void write_number(writer *out, uint64_t number, size_t column) {
    char digits[20];
    size_t many = 0;
    do
        digits[many++] = (char)('0' + number % 10);
    while ((number /= 10) != 0);
    pad_to(out, column > many ? column - many : 0);
    while (many > 0)
        write_byte(out, digits[--many]);
}

static void write_hex(writer *out, uint8_t byte) {
    static const char digits[] = "0123456789abcdef";
    write_byte(out, digits[byte >> 4]);
    write_byte(out, digits[byte & 15]);
}

/* Writes a byte of a name so that no byte can end the name, the line or the text. */
static void write_escaped(writer *out, uint8_t byte) {
    if (byte >= ' ' && byte <= '~' && byte != '`' && byte != '\\') {
        write_byte(out, (char)byte);
    } else {
        write_text(out, "\\x");
        write_hex(out, byte);
    }
}

static void write_name(writer *out, const grain_pools *pools, size_t name) {
    if (pools->starts_len < 2 || name >= pools->starts_len - 1)
        return;
    size_t length = pools->starts[name + 1] - pools->starts[name];
    size_t shown = length <= NAME_BYTES_SHOWN ? length : NAME_BYTES_SHOWN;
    write_text(out, " `");
    for (size_t i = 0; i < shown; i++)
        write_escaped(out, pools->names[pools->starts[name] + i]);
    write_byte(out, '`');
    if (shown < length) {
        write_text(out, " and ");
        write_number(out, length - shown, 0);
        write_text(out, " more bytes");
    }
}

static void write_instruction(listing *l, size_t at) {
    const grain_program *program = l->program;
    char text[GRAIN_TEXT_SIZE] = {0};
    grain_instruction_row instruction;
    if (!grain_instruction(program->code, program->code_len, at, &instruction))
        return;
    grain_instruction_text(program->code, program->code_len, at, text, sizeof text);
    write_text(&l->out, text);
    for (size_t i = 0; i < 3; i++)
        if (instruction.fields[i].kind == GRAIN_KIND_NAME)
            write_name(&l->out, &program->pools, instruction.fields[i].value);
}

/* Writes the bases of the armed handlers, the innermost first. */
static void write_bases(listing *l, uint32_t base) {
    writer *out = &l->out;
    if (base >= l->found.bases)
        write_byte(out, '-');
    for (size_t shown = 0; base < l->found.bases; shown++, base = l->bases[base].next) {
        if (shown == BASES_SHOWN) {
            write_text(out, " and ");
            write_number(out, l->armed[base], 0);
            write_text(out, " more");
            return;
        }
        if (shown != 0)
            write_byte(out, ' ');
        write_number(out, l->bases[base].operands, 0);
        write_byte(out, '/');
        write_number(out, l->bases[base].iterators, 0);
    }
}

/* The columns end, or in the last three cases begin, here. */
enum { ADDRESS = 9, BYTES = 11, OPERANDS = 35, ITERATORS = 45, BASES = 47, INSTRUCTION = 57 };

static void write_address(listing *l, size_t at) {
    size_t width = widths[l->program->code[at]];
    write_number(&l->out, at, ADDRESS);
    pad_to(&l->out, BYTES);
    for (size_t i = 0; i < width; i++)
        write_hex(&l->out, l->program->code[at + i]);
}

/* Writes an instruction and the state there; NULL where that isn't known. */
static void write_row(listing *l, size_t at, const grain_row *row, bool is_flaw) {
    writer *out = &l->out;
    if (at >= l->program->code_len)
        return;
    write_address(l, at);
    if (row != NULL) {
        write_number(out, row->operands, OPERANDS);
        write_byte(out, ' ');
        write_number(out, row->iterators, ITERATORS);
        write_text(out, "  ");
        write_bases(l, row->base);
        if (out->column >= INSTRUCTION)
            write_text(out, "  ");
    } else {
        pad_to(out, BYTES + 18);
        write_text(out, l->is_refused ? "not visited" : "unreachable");
    }
    pad_to(out, INSTRUCTION);
    write_instruction(l, at);
    if (is_flaw)
        write_text(out, "  <== here");
    end_line(out);
}

/* Whether the flaw is at this address: that of the last row of the path. */
static bool is_flaw_at(const listing *l, size_t at) {
    return l->is_refused && at == l->rows[l->found.rows + l->found.path - 1].at;
}

/* Writes the instructions of the chunk, in the order of addresses. */
static void write_chunk(listing *l) {
    size_t row = 0, at = l->chunk.entry;
    write_text(&l->out, "  address  bytes           operands iterators  bases     instruction");
    end_line(&l->out);
    while (at < l->chunk.end && !l->out.is_stopped && widths[l->program->code[at]] != 0) {
        while (row < l->found.rows && l->rows[row].at < at)
            row++;
        bool is_known = row < l->found.rows && l->rows[row].at == at;
        write_row(l, at, is_known ? &l->rows[row] : NULL, is_flaw_at(l, at));
        at += widths[l->program->code[at]];
    }
}

static void write_path(listing *l, const char *title, const grain_row *rows, size_t many) {
    if (many == 0 || l->out.is_stopped)
        return;
    write_text(&l->out, title);
    end_line(&l->out);
    for (size_t i = 0; i < many && !l->out.is_stopped; i++)
        write_row(l, rows[i].at, &rows[i], false);
}

static void write_refusal(writer *out, const char *before, const grain_refusal *refusal) {
    char text[GRAIN_TEXT_SIZE] = {0};
    grain_refusal_text(refusal, text, sizeof text);
    write_text(out, before);
    write_text(out, text);
    end_line(out);
}

static void write_all(listing *l) {
    writer *out = &l->out;
    const grain_explanation *found = &l->found;
    write_text(out, "from ");
    write_number(out, l->chunk.entry, 0);
    write_text(out, " to ");
    write_number(out, l->chunk.end, 0);
    write_text(out, ", declares ");
    write_number(out, l->chunk.max_stack, 0);
    if (!l->is_refused) {
        write_text(out, ": passes");
        end_line(out);
        write_chunk(l);
        return;
    }
    write_refusal(out, ": refused ", &found->refusal);
    /* Without a path the chunk itself isn't a part of the code that holds whole instructions. */
    if (found->path == 0 || out->is_stopped)
        return;
    write_chunk(l);
    if (out->is_stopped)
        return;
    write_refusal(out, "  ", &found->refusal);
    write_path(l, "  A path there:", l->rows + found->rows, found->path);
    write_path(l, "  Another path there:", l->rows + found->rows + found->path, found->other);
}

/* Whether the base and those below it are counted, where each base has its own number of handlers, or 0. */
static bool is_counted(const listing *l, uint32_t base) {
    return base >= l->found.bases || l->armed[base] != 0;
}

/* Counts for each base how many handlers are armed, each base once. */
static void count_armed(listing *l) {
    for (uint32_t first = 0; first < l->found.bases; first++) {
        uint32_t many = 0, base = first;
        for (; !is_counted(l, base); base = l->bases[base].next)
            many++;
        many += base < l->found.bases ? l->armed[base] : 0;
        for (base = first; !is_counted(l, base); base = l->bases[base].next)
            l->armed[base] = many--;
    }
}

/* How many instructions the chunk has, or 0 where there is no such chunk. */
static size_t count_chunk(const grain_program *program, size_t chunk) {
    size_t many = 0;
    if (chunk >= program->chunks_len)
        return 0;
    size_t end = program->chunks[chunk].end;
    if (end > program->code_len)
        end = program->code_len;
    for (size_t at = program->chunks[chunk].entry; at < end && widths[program->code[at]] != 0; many++)
        at += widths[program->code[at]];
    return many;
}

static size_t size_of_room(size_t room) {
    return room * (3 * sizeof(grain_row) + sizeof(grain_base) + sizeof(uint32_t));
}

/* Makes room, all of whose bytes are 0. */
static bool make_room(listing *l, size_t room) {
    unsigned char *block = grain_alloc(size_of_room(room), sizeof(uint32_t));
    if (block == NULL)
        return false;
    for (size_t i = 0; i < size_of_room(room); i++)
        block[i] = 0;
    l->room = room;
    l->rows = (void *)block;
    l->bases = (void *)(l->rows + 3 * room);
    l->armed = (void *)(l->bases + room);
    return true;
}

/* Writes where the program is refused for something else than its chunks. */
static grain_status write_program(listing *l, uint16_t caps) {
    grain_program without_chunks = *l->program;
    grain_report report = {{GRAIN_FLAW_NONE, 0, 0, 0, 0}, 0};
    without_chunks.chunks = NULL;
    without_chunks.chunks_len = 0;
    grain_status status = grain_verify(NULL, caps, GRAIN_NO_LIMIT, &without_chunks, NULL, 0, NULL, &report);
    if (status == GRAIN_REFUSED)
        write_refusal(&l->out, "the program is refused: ", &report.refusal);
    return status;
}

/* Whether there was room for all that is explained. */
static bool is_complete(const listing *l) {
    const grain_explanation *found = &l->found;
    return found->rows <= l->room && found->path <= l->room && found->other <= l->room && found->bases <= l->room;
}

static grain_status write_listing(listing *l, uint16_t caps, size_t chunk) {
    grain_status status = grain_explain(caps, l->program, chunk, l->rows, 3 * l->room, l->bases, l->room, &l->found);
    if (status != GRAIN_ACCEPTED && status != GRAIN_REFUSED && status != GRAIN_BAD_CODE)
        return status;
    if (!is_complete(l)) /* each list has an entry for each instruction at most, so there is room */
        return GRAIN_OUT_OF_MEMORY;
    grain_status of_program = write_program(l, caps);
    if (of_program != GRAIN_ACCEPTED && of_program != GRAIN_REFUSED)
        return of_program;
    if (status != GRAIN_BAD_CODE && !l->out.is_stopped) {
        l->chunk = l->program->chunks[chunk];
        l->is_refused = status == GRAIN_REFUSED;
        count_armed(l);
        write_all(l);
    }
    return l->out.is_stopped ? GRAIN_STOPPED : status;
}

grain_status grain_listing(uint16_t caps, const grain_program *program, size_t chunk, grain_put *put, void *context) {
    listing l = {.out = {.put = put, .context = context}, .program = program};
    size_t room = count_chunk(program, chunk) + 1;
    if (!make_room(&l, room))
        return GRAIN_OUT_OF_MEMORY;
    grain_status status = write_listing(&l, caps, chunk);
    grain_dealloc(l.rows);
    return status;
}
