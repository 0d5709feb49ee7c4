/* grain: the proved verifier for untrusted Rhai Grain bytecode, in the host's process.
 *
 * grain_verify says whether a compiled script may be run in the host's process, and how many operands each of its chunks needs.
 * Its description below says what acceptance means, and what the machine that runs accepted code must do.
 *
 * Every function is proved, except for plain C: grain_listing, grain_file_callee, grain_version, grain_status_text, the three
 * functions that allocate, the code around the calls on files that allocates, fills and frees their records, and the test for NULL before
 * each call. Whatever the numbers and the contents of lists are, a call returns, and
 * writes only what its description says. The caller must ensure what no library can check:
 *
 * - A list is a pointer and a length. The pointer may be NULL if the length is 0. Any other pointer is aligned to its type,
 *   and points to as many items. Items that are read must be set; so must those of a list that is only written to.
 * - All other pointers are valid, unless it is said that they may be NULL.
 * - What a call writes overlaps nothing else that it is given, and no other thread reads or writes it during the call.
 *   What is only read may overlap, and any number of calls may read it at once.
 * - A bool is 0 or 1.
 * - A grain_scratch begins as GRAIN_SCRATCH_NONE. Only these calls read or write it, one call at a time. Don't use two
 *   copies of one. Threads may hand it to each other.
 * - Only grain_verify, grain_tighten, grain_explain, grain_listing and the calls on files allocate, through grain_alloc and its
 *   two companions (at the end). They free everything before they return, except what a scratch or a file keeps. Don't call
 *   them from a signal handler, nor in a child that a process with several threads has forked.
 *
 * No call waits or prints. Nothing is kept between calls except in a scratch or a file. A call takes up to 22 KiB of its
 * thread's stack; calls that read a file take more, by how deep its values are nested (grain_file_read). On a thread that has
 * as much, no call ends the process.
 * The library is for x86-64 Linux, on processors with popcnt (x86-64-v2).
 *
 * FORMAT.md has the instructions, the tables and the rules of verification; EMBEDDING.md says what a host must do
 * and what each call costs. */
#ifndef GRAIN_H
#define GRAIN_H

#include <stdbool.h>
#include <stddef.h>
#include <stdint.h>

#include "grain_instructions.h"

#define GRAIN_VERSION_MAJOR 0
#define GRAIN_VERSION_MINOR 2
#define GRAIN_VERSION_PATCH 0

/* The number of this interface. It rises with each change that can break a program (CHANGELOG.md). A program that was
 * compiled with this header doesn't link with a library of another interface: it refers to a symbol with this number. */
#define GRAIN_INTERFACE 3

#ifdef __cplusplus
extern "C" {
#endif

#if defined(__cplusplus) && __cplusplus >= 201703L
#define GRAIN_NODISCARD [[nodiscard]]
#elif defined(__GNUC__)
#define GRAIN_NODISCARD __attribute__((warn_unused_result))
#else
#define GRAIN_NODISCARD
#endif

/* The number of the library, as a symbol: a program that includes this header links only with this interface. */
extern const uint32_t grain_interface_3;
#ifdef __GNUC__
#ifdef __has_attribute
#if __has_attribute(retain)
__attribute__((retain)) /* also if a linker collects sections */
#endif
#endif
__attribute__((used)) static const uint32_t *const grain_interface_of_header = &grain_interface_3;
#endif

/* Enums have 4 bytes. In C++ each number of 32 bits is a value of each of them. */
#ifdef __cplusplus
#define GRAIN_ENUM(name) enum name : uint32_t
#else
#define GRAIN_ENUM(name) enum name
#endif

/* What a program needs of its host, one bit each (FORMAT.md, "Capabilities"). */
#define GRAIN_CAP_NONE 0x0000
#define GRAIN_CAP_FUNCTION 0x0001
#define GRAIN_CAP_ARRAY 0x0002
#define GRAIN_CAP_BLOB 0x0004
#define GRAIN_CAP_MAP 0x0008
#define GRAIN_CAP_FN_PTR 0x0010
#define GRAIN_CAP_CURRYING 0x0020
#define GRAIN_CAP_SHARING 0x0040
#define GRAIN_CAP_THIS 0x0080
#define GRAIN_CAP_INDEXING 0x0100
#define GRAIN_CAP_PROPERTY 0x0200
#define GRAIN_CAP_METHOD 0x0400
#define GRAIN_CAP_MODULE 0x0800
#define GRAIN_CAP_EXPORT 0x1000
#define GRAIN_CAP_IMPORT 0x2000
#define GRAIN_CAP_CUSTOM_SYNTAX 0x4000
#define GRAIN_CAP_ALL 0x7fff

/* What a call returns. Each number means one thing. */
typedef GRAIN_ENUM(grain_status) {
    GRAIN_ACCEPTED = 0,      /* the program is accepted, or the chunk passes */
    GRAIN_REFUSED = 1,       /* it is refused, and the refusal is written */
    GRAIN_SHORT = 2,         /* a list of the caller's has too few items */
    GRAIN_OUT_OF_MEMORY = 3, /* the allocator refused */
    GRAIN_NOT_FLAT = 4,      /* no pools have this flat form: grain_check_pools says where */
    GRAIN_TOO_MUCH_WORK = 5, /* the chunks span more of the code than the limit allows */
    GRAIN_NO_CHUNK = 6,      /* the program has no chunk with this index */
    GRAIN_BAD_CODE = 7,      /* nothing is explained: the code isn't whole instructions whose indices are in bounds */
    GRAIN_STOPPED = 8,       /* the caller's function asked to stop */
    GRAIN_MALFORMED = 9,     /* the bytes aren't a program file within the limits, and why is written */
    GRAIN_TOO_LONG = 10,     /* a list of the file has 4294967296 entries or more, or a text or a blob as many bytes */
    GRAIN_BAD_LIMIT = 11,    /* a limit is above its greatest value: limits->depth above GRAIN_DEPTH_MAX */
    GRAIN_NOT_RESTORABLE = 12, /* a sidecar wouldn't give the places back (grain_file_strip) */
    GRAIN_NO_SCRIPT = 13,    /* the source text has an error, and a report is written (grain_engine.h, as all that follow) */
    GRAIN_NO_NAME = 14,      /* the script has no function or variable of this name */
    GRAIN_NOT_NOW = 15,      /* the state doesn't allow it now: a run can be resumed, or none waits for the host */
    GRAIN_BAD_VALUE = 16,    /* bytes are not UTF-8, or rows are no values within the bounds */
    GRAIN_FOREIGN_CONSTANT = 17 /* a constant of the program is a value of another host */
} grain_status;

/* Why a program is refused. Next to each flaw is what `first` and `second` of its grain_refusal are; others are 0. */
typedef GRAIN_ENUM(grain_flaw) {
    GRAIN_FLAW_NONE = 0,
    GRAIN_FLAW_MISSING_CAPS = 1,             /* first: the missing capabilities, or for a constant all that it needs;
                                              * second: those of the host */
    GRAIN_FLAW_UNDECODABLE = 2,              /* there is no instruction at the address */
    GRAIN_FLAW_TRAILING_BYTES = 3,           /* no call returns this */
    GRAIN_FLAW_CHUNK_OUT_OF_RANGE = 4,       /* at: the chunk's entry, first: its end, second: the length of the code */
    GRAIN_FLAW_JUMP_OUT_OF_RANGE = 5,        /* first: the target, outside the chunk */
    GRAIN_FLAW_JUMP_INTO_AN_INSTRUCTION = 6, /* first: the target; or the chunk begins or ends there */
    GRAIN_FLAW_DEPTH_CONFLICT = 7,           /* first, second: the operands on two paths that meet */
    GRAIN_FLAW_UNDERFLOW = 8,                /* first: the operands that are needed, second: those that are there */
    GRAIN_FLAW_FALLS_OFF_THE_END = 9,        /* a path runs past the end of the chunk, or the chunk is empty */
    GRAIN_FLAW_STACK_EXCEEDS_DECLARED = 10,  /* first: the operands that are needed, second: those declared */
    GRAIN_FLAW_ITERATOR_UNDERFLOW = 11,      /* there is no iterator */
    GRAIN_FLAW_HANDLER_UNDERFLOW = 12,       /* no handler is armed */
    GRAIN_FLAW_SINKS_BELOW_HANDLER = 13,     /* first: the operands, or else the iterators, that there were when the last
                                              * handler was armed, second: those that are left */
    GRAIN_FLAW_BAD_INDEX = 14,               /* first: the index, second: its grain_kind */
    GRAIN_FLAW_DECLARED_CAPS = 15            /* a file declares capabilities that the host lacks; only grain_file_verify
                                              * returns it. first: those that the host lacks, second: those of the host */
} grain_flaw;

/* What a number is: a field of an instruction, or the index that a refusal names. */
typedef GRAIN_ENUM(grain_kind) {
    GRAIN_KIND_NOTHING = 0,
    GRAIN_KIND_CONSTANT = 1,
    GRAIN_KIND_NAME = 2,
    GRAIN_KIND_OPERATOR = 3,
    GRAIN_KIND_OP_ASSIGNMENT = 4,
    GRAIN_KIND_FRAGMENT = 5,
    GRAIN_KIND_CHAIN = 6,
    GRAIN_KIND_SWITCH = 7,
    GRAIN_KIND_SYNTAX_SITE = 8,
    GRAIN_KIND_OPERAND = 9,
    GRAIN_KIND_SLOT = 10,
    GRAIN_KIND_COUNT = 11,
    GRAIN_KIND_TARGET = 12
} grain_kind;

/* Where a chain begins, what its steps are, and what it does at its end. */
typedef GRAIN_ENUM(grain_root) {
    GRAIN_ROOT_LOCAL = 0,    /* a local variable; root_name: the index of its name, slot: its slot */
    GRAIN_ROOT_NAMED = 1,    /* a variable that is found by its name; root_name: the index of that */
    GRAIN_ROOT_THIS = 2,     /* the receiver of the function */
    GRAIN_ROOT_TEMPORARY = 3 /* a value on the operand stack */
} grain_root;
typedef GRAIN_ENUM(grain_step_kind) {
    GRAIN_STEP_INDEX = 0,    /* operand: which of the chain's operands the index is */
    GRAIN_STEP_PROPERTY = 1, /* name, getter, setter: indices of names */
    GRAIN_STEP_METHOD = 2    /* name; argc arguments, from operand on */
} grain_step_kind;
typedef GRAIN_ENUM(grain_tail) {
    GRAIN_TAIL_READ = 0,
    GRAIN_TAIL_ASSIGN = 1,
    GRAIN_TAIL_ASSIGN_THROUGH = 2 /* op: the index of an op-assignment */
} grain_tail;

/* The first thing that is wrong with an address table or a stream. Next to each: what *detail is. */
typedef GRAIN_ENUM(grain_table_flaw) {
    GRAIN_TABLE_SOUND = 0,         /* nothing is wrong, and *detail isn't written */
    GRAIN_TABLE_TRUNCATED = 1,     /* 0 */
    GRAIN_TABLE_OVERFLOW = 2,      /* 0 */
    GRAIN_TABLE_OUT_OF_ORDER = 3,  /* the repeated address; only in address tables */
    GRAIN_TABLE_TRAILING_BYTES = 4 /* how many bytes are left */
} grain_table_flaw;

/* A list of grain_pools. */
typedef GRAIN_ENUM(grain_list) {
    GRAIN_LIST_CONSTANTS = 1,
    GRAIN_LIST_NAMES = 2, /* `names` and `starts`; the index is that of a name, or how many names there are */
    GRAIN_LIST_CHAINS = 3,
    GRAIN_LIST_STEPS = 4,
    GRAIN_LIST_SWITCHES = 5,
    GRAIN_LIST_CASES = 6,
    GRAIN_LIST_RANGES = 7
} grain_list;

/* Why bytes aren't a program file within the limits. */
typedef GRAIN_ENUM(grain_cause) {
    GRAIN_CAUSE_TOO_LARGE = 1,       /* at: how many bytes the file has, limit: how many it may have */
    GRAIN_CAUSE_MAGIC = 2,           /* the bytes don't begin as a file does */
    GRAIN_CAUSE_VERSION = 3,         /* the file is of a version that the reader doesn't know */
    GRAIN_CAUSE_KIND = 4,            /* the file is of another kind */
    GRAIN_CAUSE_TRUNCATED = 5,       /* the bytes end within a field */
    GRAIN_CAUSE_TOO_WIDE = 6,        /* a number doesn't fit */
    GRAIN_CAUSE_NOT_SHORTEST = 7,    /* a number isn't encoded in the fewest bytes */
    GRAIN_CAUSE_NOT_TEXT = 8,        /* a text is not UTF-8 */
    GRAIN_CAUSE_NOT_CHARACTER = 9,   /* a number isn't a character */
    GRAIN_CAUSE_UNKNOWN_TAG = 10,    /* a byte isn't a tag */
    GRAIN_CAUSE_KEY_ORDER = 11,      /* a key doesn't come after the one before it */
    GRAIN_CAUSE_TOO_DEEP = 12,       /* values are nested deeper than the limit */
    GRAIN_CAUSE_NAMES_TOO_LONG = 13, /* the names have more than 4294967295 bytes */
    GRAIN_CAUSE_CASE_ORDER = 14,     /* the constants of the cases of a switch don't strictly ascend */
    GRAIN_CAUSE_NO_CONSTANT = 15,    /* a switch has a case whose constant isn't there */
    GRAIN_CAUSE_TOO_MANY_CASES = 16, /* a switch has more cases than the limit */
    GRAIN_CAUSE_SAME_CASE = 17,      /* two cases of a switch are of the same value */
    GRAIN_CAUSE_NO_LINE = 18,        /* a place has line 0 */
    GRAIN_CAUSE_TRAILING = 19        /* bytes follow the last field */
} grain_cause;

/* The parts of a program file, in their order. */
typedef GRAIN_ENUM(grain_part) {
    GRAIN_PART_HEADER = 0,
    GRAIN_PART_CAPABILITIES = 1,
    GRAIN_PART_ID = 2,              /* the number of the program */
    GRAIN_PART_CODE = 3,
    GRAIN_PART_MAIN_CHUNK = 4,
    GRAIN_PART_FUNCTIONS = 5,       /* how many there are; and so of the other lists */
    GRAIN_PART_FUNCTION = 6,        /* index: which; and so of the other items */
    GRAIN_PART_NAMES = 7,
    GRAIN_PART_NAME = 8,
    GRAIN_PART_CONSTANTS = 9,
    GRAIN_PART_CONSTANT = 10,
    GRAIN_PART_OPERATORS = 11,
    GRAIN_PART_OPERATOR = 12,
    GRAIN_PART_OP_ASSIGNMENTS = 13,
    GRAIN_PART_OP_ASSIGNMENT = 14,
    GRAIN_PART_CHAINS = 15,
    GRAIN_PART_CHAIN = 16,
    GRAIN_PART_SWITCHES = 17,
    GRAIN_PART_SWITCH = 18,
    GRAIN_PART_SOURCE_NAME = 19,
    GRAIN_PART_POSITIONS = 20,      /* the places of the code */
    GRAIN_PART_POSITION = 21,
    GRAIN_PART_ADDRESS_TABLE = 22,  /* of a sidecar file, which no call reads */
    GRAIN_PART_CHAIN_STREAM = 23,   /* the same */
    GRAIN_PART_REST = 24            /* what follows the last part */
} grain_part;

/* What a value is, and what its grain_value has. In all others count and number are 0. */
typedef GRAIN_ENUM(grain_value_tag) {
    GRAIN_VALUE_UNIT = 0,
    GRAIN_VALUE_FALSE = 1,
    GRAIN_VALUE_TRUE = 2,
    GRAIN_VALUE_INTEGER = 3,         /* number */
    GRAIN_VALUE_CHARACTER = 4,       /* number */
    GRAIN_VALUE_TEXT = 5,            /* count bytes, from number on among the texts */
    GRAIN_VALUE_RANGE = 6,           /* its two integers follow, the second excluded */
    GRAIN_VALUE_RANGE_INCLUSIVE = 7, /* the same, the second included */
    GRAIN_VALUE_ARRAY = 8,           /* count values follow */
    GRAIN_VALUE_BLOB = 9,            /* as a text */
    GRAIN_VALUE_MAP = 10,            /* count entries follow: a text and then a value */
    GRAIN_VALUE_FN_PTR = 11,         /* a text follows, its name, and then count bound values */
    GRAIN_VALUE_SHARED = 12,         /* the value follows */
    GRAIN_VALUE_HOST = 13,           /* no file has one */
    GRAIN_VALUE_OPERATOR = 14,       /* number (FORMAT.md); only among operators */
    GRAIN_VALUE_FLOAT = 15           /* number: the 64 bits of a double, which memcpy(&d, &number, sizeof d) gives */
} grain_value_tag;

/* In place of the index of a chunk: the refusal is of none. */
#define GRAIN_WHOLE_PROGRAM UINT64_MAX

/* In place of an address: there is none. */
#define GRAIN_NO_ADDRESS UINT32_MAX

/* In place of an index of a base: there is none, so that a list of bases ends. */
#define GRAIN_NO_BASE UINT32_MAX

/* No limit on work. */
#define GRAIN_NO_LIMIT UINT64_MAX

/* A part of the code that is run by itself: the top level, or the body of a function. */
typedef struct grain_chunk {
    uint32_t entry;     /* the address of its first instruction */
    uint32_t end;       /* the address past its last instruction */
    uint16_t max_stack; /* how many operands it declares that it needs at most */
} grain_chunk;

/* What a constant needs of the host: is_known 1 and its capabilities, including those of its parts; or 0 and 0 for a value
 * that is shared or the host's own, and for whatever holds one. */
typedef struct grain_constant {
    uint16_t is_known;
    uint16_t caps;
} grain_constant;

/* A chain of accesses, such as a.b[i]. Fields that its root and its tail don't use are 0. */
typedef struct grain_chain {
    grain_root root;
    uint32_t root_name;
    uint32_t steps; /* how many steps it has */
    grain_tail tail;
    uint32_t op;
    uint16_t operands; /* how many operands its steps take */
    uint16_t slot;     /* the slot of the local variable at which it begins, for GRAIN_ROOT_LOCAL */
} grain_chain;

/* A step of a chain; fields that its kind doesn't use are 0. */
typedef struct grain_step {
    grain_step_kind kind;
    uint32_t name;
    uint32_t getter;
    uint32_t setter;
    uint16_t operand;
    uint8_t argc;
} grain_step;

/* A switch. */
typedef struct grain_switch {
    uint32_t cases;     /* how many cases it has */
    uint32_t ranges;    /* how many ranges it has */
    uint32_t otherwise; /* the target for a subject that is in no case and in no range */
} grain_switch;

/* A case of a switch. */
typedef struct grain_case {
    uint32_t target;   /* the address to which it jumps */
    uint32_t constant; /* the index of the constant that the subject must equal */
} grain_case;

/* What a program has besides its code and its chunks, in flat form. GRAIN_POOLS_NONE is empty.
 *
 * `steps` has the steps of all chains, chain after chain. `cases` and `ranges` have those of all switches, switch after switch.
 * `names` has the bytes of all names, one after another, as UTF-8. Name i has the bytes from starts[i] up to starts[i + 1]. So
 * `starts` has one entry more than there are names: the first is 0, the last is names_len. If there are no names, both lists may
 * be empty. */
typedef struct grain_pools {
    const grain_constant *constants;
    size_t constants_len;
    const uint8_t *names;
    size_t names_len;
    const uint32_t *starts;
    size_t starts_len;
    size_t operators;
    size_t op_assignments;
    size_t fragments;
    size_t functions;
    const grain_chain *chains;
    size_t chains_len;
    const grain_step *steps;
    size_t steps_len;
    const grain_switch *switches;
    size_t switches_len;
    const grain_case *cases; /* those of each switch in any order */
    size_t cases_len;
    const uint32_t *ranges; /* the target of each */
    size_t ranges_len;
} grain_pools;
#define GRAIN_POOLS_NONE {NULL, 0, NULL, 0, NULL, 0, 0, 0, 0, 0, NULL, 0, NULL, 0, NULL, 0, NULL, 0, NULL, 0}

/* A program: its code, its chunks, and its pools. All bytes 0 is a program with nothing in it. */
typedef struct grain_program {
    const uint8_t *code;
    size_t code_len;
    const grain_chunk *chunks;
    size_t chunks_len;
    grain_pools pools;
} grain_program;

/* Memory that one verification after another uses. Its fields are the library's own. */
typedef struct grain_scratch {
    bool made;
    void *block;
} grain_scratch;
#define GRAIN_SCRATCH_NONE {false, NULL}

/* Why a program is refused. */
typedef struct grain_refusal {
    grain_flaw flaw;
    uint64_t chunk; /* the index of the chunk, or GRAIN_WHOLE_PROGRAM: a constant, the code, the functions or the declared
                     * capabilities are refused */
    uint64_t at;    /* the address of the instruction that is refused, else 0 */
    uint64_t first;
    uint64_t second;
} grain_refusal;

/* What a verification found. */
typedef struct grain_report {
    grain_refusal refusal; /* written if the program is refused */
    uint64_t visited;      /* written if it is accepted or refused: how many instructions the walks visited */
} grain_report;

/* A field of an instruction. */
typedef struct grain_field {
    grain_kind kind;
    uint32_t value; /* the index, the slot, the count or the target */
} grain_field;

/* An instruction: its tag, how many bytes it takes, and its fields, followed by empty ones. */
typedef struct grain_instruction_row {
    uint8_t tag;
    uint8_t width;
    grain_field fields[3];
} grain_instruction_row;

/* A place in a source text: a line from 1, or 0 if there is no place, and a column, or 0 for the whole line. */
typedef struct grain_place {
    uint32_t line;
    uint32_t column;
} grain_place;

/* An entry of an address table: the address of an instruction and its place. */
typedef struct grain_entry {
    uint32_t address;
    uint32_t line;
    uint32_t column;
} grain_entry;

/* The state at an instruction when a run reaches it. */
typedef struct grain_row {
    uint32_t at;        /* the address of the instruction */
    uint32_t operands;  /* how many there are */
    uint32_t iterators; /* how many there are */
    uint32_t from;      /* the address of an instruction from which an edge comes here, or GRAIN_NO_ADDRESS: at the entry, and on a path */
    uint32_t base;      /* the base of the last armed handler, an index into the bases, or GRAIN_NO_BASE */
} grain_row;

/* The base of an armed handler: what was on the stacks when it was armed, and the base of the handler before it. */
typedef struct grain_base {
    uint32_t operands;
    uint32_t iterators;
    uint32_t next; /* an index into the bases, or GRAIN_NO_BASE */
} grain_base;

/* What an explanation has: how many rows of each kind, one kind after another, how many bases, and why the chunk is
 * refused, if it is. */
typedef struct grain_explanation {
    size_t rows;  /* the state at each instruction that the walk visited */
    size_t path;  /* a path to the flaw, from the chunk's entry on; its last row shows the flaw */
    size_t other; /* for a conflict: another path to the same address */
    size_t bases;
    grain_refusal refusal; /* written if the chunk is refused; its chunk is GRAIN_WHOLE_PROGRAM */
} grain_explanation;

/* If pools aren't flat: a list and an index into it. The entry there is wrong, or has more steps, cases or ranges
 * than there are, or belongs to no chain, switch or name. */
typedef struct grain_pools_flaw {
    grain_list list;
    uint64_t index;
} grain_pools_flaw;

/* A function of a program file. Its chunk is the one after that of the function before it, the first after the main chunk.
 *
 * Nothing tests the indices of names here, in the list of parameters and in op-assignments: each may be that of no name. So a
 * host tests them, and the indices in a chain or a switch that no instruction names. */
typedef struct grain_function {
    uint32_t name;       /* the index of its name */
    uint32_t parameters; /* how many it has */
    bool is_private;     /* only its own script may call it */
    bool is_typed;       /* it is declared for receivers of one type */
    uint32_t this_type;  /* the index of the name of that type, else 0 */
} grain_function;

/* An op-assignment: the names of its operator, as +=, and of the operator that it applies, as +. */
typedef struct grain_op_assignment {
    uint32_t op_assign_name;
    uint32_t op_name;
} grain_op_assignment;

/* A range of a switch: the integers from `from` up to `to`. */
typedef struct grain_range {
    int64_t from;
    int64_t to;
    bool is_inclusive; /* whether `to` is one of them */
    uint32_t target;   /* the address to which they jump */
} grain_range;

/* A value, or the beginning of one: what is in it follows in the list. */
typedef struct grain_value {
    grain_value_tag tag;
    uint32_t count;
    int64_t number;
} grain_value;

/* All that a program file has. Lists that go with a list of `program` have its order. */
typedef struct grain_contents {
    size_t size;           /* of this record in the library, in bytes: a later version may append fields, and changes no others */
    grain_program program; /* the main chunk comes first */
    uint16_t caps;         /* the capabilities that the program declares */
    bool has_source;       /* whether `source` is known */
    bool has_positions;    /* whether `table` is known */
    uint64_t id_low;       /* the number of the program */
    uint64_t id_high;
    const uint8_t *source; /* the name of the source, as UTF-8 */
    size_t source_len;
    const grain_function *functions;
    size_t functions_len;
    const uint32_t *parameters; /* the names of the parameters of all functions, function after function */
    size_t parameters_len;
    const uint32_t *constants; /* where each constant begins in `values` */
    size_t constants_len;
    const grain_value *values; /* the constants, one after another */
    size_t values_len;
    const uint8_t *texts; /* the bytes of the texts and blobs among them */
    size_t texts_len;
    const grain_value *operators; /* each operator, and then two for each op-assignment: its own and the one it applies */
    size_t operators_len;
    const uint8_t *operator_texts; /* the bytes of operators of the host's own */
    size_t operator_texts_len;
    const grain_op_assignment *op_assignments;
    size_t op_assignments_len;
    size_t positions; /* how many bytes of the code have a place in the file, or none there, from the first byte on */
    const uint8_t *step_flags; /* of each step: 1 ends the chain early at () */
    size_t step_flags_len;
    const grain_range *ranges; /* the ranges of all switches; the first that has the subject counts */
    size_t ranges_len;
    const uint8_t *table; /* the address table of the code (grain_table_place) */
    size_t table_len;
    const uint8_t *stream; /* the stream of the places in chains (grain_stream_place) */
    size_t stream_len;
    const uint32_t *chain_steps; /* where the steps of each chain begin in program.pools.steps */
    size_t chain_steps_len;
    const uint32_t *switch_cases; /* where the cases of each switch begin in program.pools.cases */
    size_t switch_cases_len;
    const uint32_t *switch_ranges; /* where the ranges of each switch begin in `ranges` and in program.pools.ranges */
    size_t switch_ranges_len;
    const uint32_t *function_parameters; /* where the parameters of each function begin in `parameters` */
    size_t function_parameters_len;
} grain_contents;

/* What a host bounds of the files that it reads. */
typedef struct grain_limits {
    size_t size;    /* how many bytes a file has */
    size_t cases;   /* how many cases a switch has */
    uint32_t depth; /* how deep values are nested, at most GRAIN_DEPTH_MAX; a value that holds no other counts 1 */
} grain_limits;
#define GRAIN_LIMITS_DEFAULT {67108864, 4096, 64}
#define GRAIN_DEPTH_MAX 256

/* Room of the caller's for a file that a call writes. */
typedef struct grain_room {
    uint8_t *bytes; /* may be NULL if len is 0 */
    size_t len;     /* how many bytes there is room for */
    size_t size;    /* the call writes how many bytes the file has */
} grain_room;

/* Why bytes aren't a program file within the limits. */
typedef struct grain_read_error {
    grain_cause cause;
    grain_part part; /* the part of the file that has the first wrong byte */
    uint64_t index;  /* of an item of a list its index, else 0 */
    uint64_t at;     /* the offset of that byte */
    uint64_t limit;  /* how many bytes a file may have, if it has more; else 0 */
} grain_read_error;

/* A program file that was read. */
typedef struct grain_file grain_file;

/* Verifies a program for a host that has these capabilities.
 *
 * GRAIN_ACCEPTED: the depth of each chunk is written, which is the greatest number of operands that any run of it reaches; and,
 * if `slots` isn't NULL, the number of slots of each chunk. GRAIN_REFUSED: report->refusal is written. In both cases
 * report->visited is written: how many instructions the walks visited, summed over the chunks; for a refused program it
 * is proved to be no more than that. All other results leave everything as it was. Chunk i has depths[i] and slots[i]; entries
 * past the last chunk are unchanged.
 *
 * No run of an accepted program leaves the instructions of its chunk, lacks an operand, an iterator or a handler, or has
 * more operands than the chunk's depth. This is true of kept runs: when a handler catches a fault, the stacks still have
 * at least what they had when the handler was armed. Accepted code ensures that at every instruction except the quiet
 * ones (grain_is_quiet). So the machine must step as FORMAT.md says ("Verification"); and at a quiet instruction it must
 * never fault, or only while that much is left.
 *
 * Slots are the duty of the machine: a slot is any 16-bit number, and nothing tests it. slots[i] is one more than the
 * greatest slot that an instruction of chunk i names, roots of chains among them, or 0. A machine that allocates as many slots
 * for a call, and as many as the function has parameters if these are more, needs no test of a slot; another one tests each slot
 * against what it has allocated. A slot may be read before it is declared, so all must have values from the start. DECLARE_LOCAL
 * takes the next slot, which a hostile program can do without end: the machine must bound it. `slots` is NULL, or has depths_len
 * items.
 *
 * `scratch` keeps memory from one program to the next; NULL: memory for this call alone. The result is right whatever
 * the scratch was used for before; which of several flaws is reported, and when memory runs out, may differ. `limit` bounds
 * the work: GRAIN_TOO_MUCH_WORK if the chunks span more bytes of the code than this, each chunk counted for itself, so
 * that `visited` never exceeds it. Chunks of one program usually don't overlap: the length of the code is then enough.
 * `report` may be NULL.
 *
 * Tested in this order: the pools are flat, `depths` has an item for each chunk, the limit, then the program. */
GRAIN_NODISCARD grain_status grain_verify(grain_scratch *scratch, uint16_t caps, uint64_t limit, const grain_program *program,
                                          uint16_t *depths, size_t depths_len, uint32_t *slots, grain_report *report);

/* Verifies as grain_verify does. GRAIN_ACCEPTED: the program's chunks are written to `tightened`, each declaring its depth;
 * with these the program is accepted again. */
GRAIN_NODISCARD grain_status grain_tighten(grain_scratch *scratch, uint16_t caps, uint64_t limit, const grain_program *program,
                                           grain_chunk *tightened, size_t tightened_len, grain_report *report);

/* Frees what the scratch keeps. It may be used again. NULL: nothing happens. */
void grain_scratch_free(grain_scratch *scratch);

/* Whether pools are flat. If they aren't, *flaw says which list and which entry. `flaw` may be NULL. */
bool grain_check_pools(const grain_pools *pools, grain_pools_flaw *flaw);

/* Explains a chunk of a program, the one with this index. Constants and functions aren't tested.
 *
 * GRAIN_ACCEPTED: the chunk passes. The rows are a stack typing of it, one for each reached instruction.
 * GRAIN_REFUSED: explanation->refusal is written. The path leads to the flaw, and each of its states has a row; which other
 * rows there are is left open. There is no path if the chunk is empty, isn't in the code, or begins or ends inside an
 * instruction. In both cases the rows are in the order of addresses, one for each at most, and each is reached. In both cases
 * rows, path and other path are written one after another, as many as there is room for, and so are the bases;
 * explanation->rows, path, other and bases say how many there are. All other results leave everything as it was.
 *
 * At most (end - entry) rows of each kind and as many bases are written. Time and memory grow with the instructions
 * visited and the arms of the switches among them (EMBEDDING.md). */
GRAIN_NODISCARD grain_status grain_explain(uint16_t caps, const grain_program *program, size_t chunk, grain_row *rows,
                                           size_t rows_len, grain_base *bases, size_t bases_len,
                                           grain_explanation *explanation);

/* Writes the explanation of a chunk as a listing, piece by piece, through the caller's function. It is given `context`, and
 * a line or a part of one, which isn't ended by 0. If it returns other than 0, the listing ends: GRAIN_STOPPED. All other
 * results are those of grain_explain. The function must return: no jump and no exception may leave it.
 *
 * The listing is printable ASCII and line feeds (EMBEDDING.md, "Listings"). Names are escaped, so that none can forge a line.
 * If the program is refused for a constant, its code or its functions, the first line says so; other chunks aren't
 * tested. It is all that is written if the result is GRAIN_BAD_CODE. */
typedef int grain_put(void *context, const char *text, size_t length);
GRAIN_NODISCARD grain_status grain_listing(uint16_t caps, const grain_program *program, size_t chunk, grain_put *put,
                                           void *context);

/* Reads a program file (FORMAT.md, "Program files") within the limits; NULL: GRAIN_LIMITS_DEFAULT.
 *
 * GRAIN_ACCEPTED: *file is the file, until grain_file_free. Its program is unverified. With all other results
 * *file is NULL. GRAIN_BAD_LIMIT: limits->depth is above GRAIN_DEPTH_MAX; that is tested first. GRAIN_MALFORMED: *error is the
 * first thing that is wrong. `error` may be NULL. GRAIN_BAD_LIMIT, GRAIN_TOO_LONG, GRAIN_OUT_OF_MEMORY: *error is unchanged.
 *
 * Reading goes over the bytes once, and keeps none of them. Memory is linear in the length of the file. The call stack grows by
 * about 1,200 bytes for each level that values are nested: up to 80 KiB for the usual limit of 64 levels, up to 320 KiB for
 * GRAIN_DEPTH_MAX levels. A thread with less must have a lower limit. A program has at most one file, which is these bytes. */
GRAIN_NODISCARD grain_status grain_file_read(grain_file **file, const uint8_t *bytes, size_t bytes_len,
                                             const grain_limits *limits, grain_read_error *error);

/* What the file has. The lists stay as they are until the file is freed, and any number of threads may read them. What is said
 * above of grain_pools holds of contents->program.pools, so that each call on programs takes `&contents->program`. The pointer of
 * an empty list is not NULL, and must not be dereferenced. */
const grain_contents *grain_file_contents(const grain_file *file);

/* Verifies the program of a file for a host that has these capabilities. If the program declares capabilities that the host lacks:
 * GRAIN_REFUSED by GRAIN_FLAW_DECLARED_CAPS, without a test of anything else of the program. If not, it is verified under those
 * that it declares, as grain_verify does. `depths` has an item for the main chunk and for each function. `scratch`, `slots` and
 * `report` may be NULL. */
GRAIN_NODISCARD grain_status grain_file_verify(grain_scratch *scratch, const grain_file *file, uint16_t caps, uint64_t limit,
                                               uint16_t *depths, size_t depths_len, uint32_t *slots, grain_report *report);

/* The index of the chunk that a call of this name with as many arguments runs: that of the first function whose name has the
 * same text, with as many parameters, and declared for receivers of no type (RUNNING.md, "Callees"). 0, which is the index of the
 * main chunk: there is none. It goes over all functions. */
size_t grain_file_callee(const grain_file *file, uint32_t name, size_t arguments);

/* Frees a file. NULL: nothing happens. */
void grain_file_free(grain_file *file);

/* Writes the file of the same program, whose chunks declare their depths: reads a file as grain_file_read does, and verifies its
 * program under the capabilities that it declares, as grain_verify does.
 *
 * GRAIN_ACCEPTED: the file is written to tightened->bytes, tightened->size is its length, and report->visited is written. The
 * program of that file is accepted again. GRAIN_SHORT: only tightened->size is written, and there is less room. The file is never
 * longer than the one that was read. GRAIN_REFUSED: *report is written. GRAIN_MALFORMED: *error is written. With all other results
 * nothing is written. `limits`, `error` and `report` may be NULL.
 *
 * A call takes of the call stack what grain_file_read does. */
GRAIN_NODISCARD grain_status grain_file_tighten(const uint8_t *bytes, size_t bytes_len, const grain_limits *limits,
                                                uint64_t limit, grain_room *tightened, grain_read_error *error,
                                                grain_report *report);

/* Writes the file of the same program without places, and the places as a sidecar file (FORMAT.md, "Sidecar files"), which
 * the command `grain attach` gives back to it: reads a file as grain_file_read does.
 *
 * GRAIN_ACCEPTED: both files are written, and stripped->size and sidecar->size are their lengths. GRAIN_SHORT: only these are
 * written, and there is less room for one of them. The stripped file is never longer than the one that was read.
 * GRAIN_NOT_RESTORABLE: the sidecar wouldn't give the file back, since a place belongs to an address at which no instruction
 * begins, or the list of places isn't as long as the code, or has no place at all. GRAIN_MALFORMED: *error is written. With all
 * results but the first two neither room is written. `limits` and `error` may be NULL. A call takes of the call stack what
 * grain_file_read does. */
GRAIN_NODISCARD grain_status grain_file_strip(const uint8_t *bytes, size_t bytes_len, const grain_limits *limits,
                                              grain_room *stripped, grain_room *sidecar, grain_read_error *error);

/* Room for the longest text of the next three calls, with the 0 that ends it. */
#define GRAIN_TEXT_SIZE 129

/* Writes a refusal as a line of ASCII (FORMAT.md). Like snprintf: writes as much as there is room for, always ended by 0
 * unless size is 0, and returns how long the text is. 0: the record isn't a refusal, and nothing is written. */
size_t grain_refusal_text(const grain_refusal *refusal, char *text, size_t size);

/* Writes the instruction at an address, its name and its fields, such as "CALL 3 2", as grain_refusal_text does. 0: there is
 * none, and nothing is written. */
size_t grain_instruction_text(const uint8_t *code, size_t code_len, size_t at, char *text, size_t size);

/* Writes why bytes aren't a file, such as "byte 7, in name 3: text is not UTF-8", as grain_refusal_text does. 0: the record says
 * nothing of files, and nothing is written. */
size_t grain_read_error_text(const grain_read_error *error, char *text, size_t size);

/* Counts the instructions of the code. false: *damage is the first address at which there is none, and *count is
 * unchanged. */
bool grain_count_instructions(const uint8_t *code, size_t code_len, size_t *count, size_t *damage);

/* The instruction at an address; false, and nothing is written, if there is none. A machine decodes faster by
 * GRAIN_INSTRUCTIONS (grain_instructions.h). */
bool grain_instruction(const uint8_t *code, size_t code_len, size_t at, grain_instruction_row *instruction);

/* Whether instructions with this tag are quiet (see grain_verify). For other bytes the result means nothing. */
bool grain_is_quiet(uint8_t tag);

/* The place of an address in an address table; false, and nothing is written, if the table has none. */
bool grain_table_place(const uint8_t *table, size_t table_len, uint32_t address, grain_place *place);

/* Whether bytes are an address table. */
grain_table_flaw grain_check_table(const uint8_t *table, size_t table_len, uint64_t *detail);

/* Writes the entries of an address table in order, as many as there is room for, and returns how many there are: those
 * before the first damage. An entry takes at least 3 bytes of the table. */
size_t grain_table_entries(const uint8_t *table, size_t table_len, grain_entry *entries, size_t entries_len);

/* The place with this index in a stream; false, and nothing is written, if the stream has none. */
bool grain_stream_place(const uint8_t *stream, size_t stream_len, uint32_t index, grain_place *place);

/* Whether bytes are a stream. */
grain_table_flaw grain_check_stream(const uint8_t *stream, size_t stream_len, uint64_t *detail);

/* Writes the places of a stream in order, as many as there is room for, and *count, how many there are. false, and
 * nothing is written: the bytes aren't a stream. A place takes at least 2 bytes of the stream. */
bool grain_stream_places(const uint8_t *stream, size_t stream_len, grain_place *places, size_t places_len, size_t *count);

/* What a status says, such as "out of memory". It is a constant, which isn't freed. */
const char *grain_status_text(grain_status status);

/* GRAIN_INTERFACE of the library. */
uint32_t grain_interface(void);

/* The version of the library, such as "0.2.0". */
const char *grain_version(void);

/* How the library allocates: by malloc, realloc and free of the C library. A program that links libgrain.a may define
 * these three itself, all of them; its own then replace the library's. No size is 0. `alignment` is a power of two, at most
 * 16; `old_size` is that of the block. NULL refuses; after a refused grain_realloc the old block is still valid. */
void *grain_alloc(size_t size, size_t alignment);
void *grain_realloc(void *block, size_t old_size, size_t size, size_t alignment);
void grain_dealloc(void *block);

/* The library is compiled with these sizes. */
typedef char grain_requires_64_bits[sizeof(size_t) == 8 && sizeof(void *) == 8 ? 1 : -1];
#define GRAIN_HAS_4_BYTES(name) typedef char grain_requires_4_bytes_of_##name[sizeof(grain_##name) == 4 ? 1 : -1]
GRAIN_HAS_4_BYTES(status);
GRAIN_HAS_4_BYTES(flaw);
GRAIN_HAS_4_BYTES(kind);
GRAIN_HAS_4_BYTES(root);
GRAIN_HAS_4_BYTES(step_kind);
GRAIN_HAS_4_BYTES(tail);
GRAIN_HAS_4_BYTES(table_flaw);
GRAIN_HAS_4_BYTES(list);
GRAIN_HAS_4_BYTES(cause);
GRAIN_HAS_4_BYTES(part);
GRAIN_HAS_4_BYTES(value_tag);
#undef GRAIN_HAS_4_BYTES
#undef GRAIN_ENUM

#ifdef __cplusplus
}
#endif
#undef GRAIN_NODISCARD
#endif
