// walk.c in C++: a host from its parts to a result, over vectors and a verifier that keeps its memory. It prints the same.
//
//     walk [N]
#include "verifier.hpp"

#include <cstdint>
#include <cstdio>
#include <cstdlib>

namespace {

// The width of each instruction and its fields as letters.
struct Form {
    std::uint8_t width;
    const char *fields;
};

Form form_of(std::uint8_t tag) {
    switch (tag) {
#define ROW(tag, name, width, fields, quiet) \
    case tag: return {width, fields};
        GRAIN_INSTRUCTIONS(ROW)
#undef ROW
    }
    return {0, ""};
}

std::size_t size_of_field(char letter) {
    return letter == 'a' ? 1 : letter == 'j' ? 4 : 2;
}

class Script {
  public:
    std::vector<std::uint8_t> code, table = {0};
    std::vector<std::string> names;
    std::vector<std::int64_t> values;

    // Appends an instruction and its line, and returns its address.
    std::uint32_t emit(grain_tag tag, std::uint8_t line, std::uint32_t first = 0, std::uint32_t second = 0) {
        const std::uint32_t at = static_cast<std::uint32_t>(code.size()), fields[] = {first, second, 0};
        code.push_back(static_cast<std::uint8_t>(tag));
        for (std::size_t i = 0; form_of(code[at]).fields[i] != 0; i++)
            for (std::size_t byte = 0; byte < size_of_field(form_of(code[at]).fields[i]); byte++)
                code.push_back(static_cast<std::uint8_t>(fields[i] >> 8 * byte));
        table[0]++;
        table.push_back(static_cast<std::uint8_t>(at - last)); // from the instruction before it; each number is below 128
        table.push_back(line);
        table.push_back(1);
        return last = at;
    }

    void set_target(std::uint32_t at, std::uint32_t target) {
        for (std::size_t byte = 0; byte < 4; byte++)
            code[at + 1 + byte] = static_cast<std::uint8_t>(target >> 8 * byte);
    }

  private:
    std::uint32_t last = 0;
};

// A script as the verifier wants it. The lists that it hasn't are empty vectors.
class Flat {
  public:
    explicit Flat(const Script &script)
        : code(script.code), chunks(1, grain_chunk{0, static_cast<std::uint32_t>(script.code.size()), 9}),
          constants(script.values.size(), grain_constant{1, GRAIN_CAP_NONE}), starts(1, 0) {
        for (const std::string &name : script.names) {
            names.insert(names.end(), name.begin(), name.end());
            starts.push_back(static_cast<std::uint32_t>(names.size()));
        }
    }

    grain_program program() const {
        grain_pools pools = {constants.data(), constants.size(), names.data(), names.size(), starts.data(), starts.size(),
                             0, 0, 0, 0, chains.data(), chains.size(), steps.data(), steps.size(), switches.data(),
                             switches.size(), cases.data(), cases.size(), ranges.data(), ranges.size()};
        return grain_program{code.data(), code.size(), chunks.data(), chunks.size(), pools};
    }

  private:
    const std::vector<std::uint8_t> &code;
    std::vector<grain_chunk> chunks;
    std::vector<grain_constant> constants;
    std::vector<std::uint8_t> names;
    std::vector<std::uint32_t> starts;
    std::vector<grain_chain> chains;
    std::vector<grain_step> steps;
    std::vector<grain_switch> switches;
    std::vector<grain_case> cases;
    std::vector<std::uint32_t> ranges;
};

// let left = n; let sum = 0; while left != 0 { sum = sum + left; left = left - 1; } sum
Script sum_up_to(std::int64_t n, bool is_flawed) {
    enum { ADD, SUBTRACT };
    enum { LEFT, SUM };
    enum { ALL, ZERO, ONE };
    Script to;
    to.values = {n, 0, 1};
    to.names = {"add", "subtract"};
    to.emit(GRAIN_TAG_LOAD_CONST, 1, ALL);
    to.emit(GRAIN_TAG_STORE_LOCAL, 1, LEFT);
    to.emit(GRAIN_TAG_LOAD_CONST, 2, ZERO);
    to.emit(GRAIN_TAG_STORE_LOCAL, 2, SUM);
    const std::uint32_t loop = to.emit(GRAIN_TAG_LOAD_LOCAL, 3, LEFT);
    const std::uint32_t leave = to.emit(GRAIN_TAG_JUMP_IF_FALSE, 3);
    to.emit(GRAIN_TAG_LOAD_LOCAL, 4, SUM);
    to.emit(GRAIN_TAG_LOAD_LOCAL, 4, LEFT);
    to.emit(GRAIN_TAG_CALL, 4, ADD, 2);
    if (!is_flawed)
        to.emit(GRAIN_TAG_STORE_LOCAL, 4, SUM);
    to.emit(GRAIN_TAG_LOAD_LOCAL, 5, LEFT);
    to.emit(GRAIN_TAG_LOAD_CONST, 5, ONE);
    to.emit(GRAIN_TAG_CALL, 5, SUBTRACT, 2);
    to.emit(GRAIN_TAG_STORE_LOCAL, 5, LEFT);
    to.emit(GRAIN_TAG_JUMP, 5, loop);
    to.set_target(leave, to.emit(GRAIN_TAG_LOAD_LOCAL, 6, SUM));
    to.emit(GRAIN_TAG_RETURN, 6);
    return to;
}

// Calls a function of the host's. false: there is none with this name and so many arguments.
bool call(const std::string &name, std::uint32_t count, const std::int64_t *arguments, std::int64_t &result) {
    if (count != 2 || (name != "add" && name != "subtract"))
        return false;
    const std::uint64_t left = static_cast<std::uint64_t>(arguments[0]), right = static_cast<std::uint64_t>(arguments[1]);
    result = static_cast<std::int64_t>(name == "add" ? left + right : left - right);
    return true;
}

// Runs an accepted script. No test is made of addresses, indices, operands or slots: `operands` has room for the chunk's depth,
// and `locals` for its slots.
bool run(const Script &script, std::int64_t *operands, std::int64_t *locals, std::int64_t &result) {
    std::size_t at = 0, depth = 0;
    for (;;) {
        const Form form = form_of(script.code[at]);
        std::uint32_t fields[3] = {0, 0, 0};
        for (std::size_t i = 0, from = at + 1; form.fields[i] != 0; i++)
            for (std::size_t byte = 0; byte < size_of_field(form.fields[i]); byte++)
                fields[i] |= static_cast<std::uint32_t>(script.code[from++]) << 8 * byte;
        std::size_t next = at + form.width;
        switch (script.code[at]) {
        case GRAIN_TAG_LOAD_CONST: operands[depth++] = script.values[fields[0]]; break;
        case GRAIN_TAG_UNIT: operands[depth++] = 0; break;
        case GRAIN_TAG_FALSE: operands[depth++] = 0; break;
        case GRAIN_TAG_TRUE: operands[depth++] = 1; break;
        case GRAIN_TAG_LOAD_LOCAL: operands[depth++] = locals[fields[0]]; break;
        case GRAIN_TAG_STORE_LOCAL: locals[fields[0]] = operands[--depth]; break;
        case GRAIN_TAG_POP: depth--; break;
        case GRAIN_TAG_JUMP: next = fields[0]; break;
        case GRAIN_TAG_JUMP_IF_TRUE: next = operands[--depth] != 0 ? fields[0] : next; break;
        case GRAIN_TAG_JUMP_IF_FALSE: next = operands[--depth] == 0 ? fields[0] : next; break;
        case GRAIN_TAG_TICK: break;
        case GRAIN_TAG_CALL:
            depth -= fields[1];
            if (!call(script.names[fields[0]], fields[1], operands + depth, operands[depth]))
                return false;
            depth++;
            break;
        case GRAIN_TAG_RETURN:
            result = depth > 0 ? operands[depth - 1] : 0;
            return true;
        default:
            return false;
        }
        at = next;
    }
}

int print_part(void *, const char *text, std::size_t length) {
    return std::fwrite(text, 1, length, stdout) != length;
}

void explain(const Script &script, const grain_program &program, const grain_refusal &refusal) {
    grain_place place;
    if (refusal.at <= UINT32_MAX &&
        grain_table_place(script.table.data(), script.table.size(), static_cast<std::uint32_t>(refusal.at), &place))
        std::printf("line %u: ", place.line);
    std::printf("%s\n", grain::text_of(refusal).c_str());
    if (refusal.chunk != GRAIN_WHOLE_PROGRAM &&
        grain_listing(GRAIN_CAP_ALL, &program, refusal.chunk, print_part, nullptr) != GRAIN_REFUSED)
        std::printf("not listed\n");
}

// Verifies a script, and runs it or explains why not.
bool answer(grain::Verifier &verifier, const Script &script) {
    const Flat flat(script);
    const grain::Verdict found = verifier.verify(GRAIN_CAP_ALL, flat.program());
    if (found.status == GRAIN_REFUSED)
        explain(script, flat.program(), found.report.refusal);
    if (found.status != GRAIN_ACCEPTED)
        return false;
    std::vector<std::int64_t> operands(found.depths[0]), locals(found.slots[0]);
    std::int64_t result = 0;
    if (!run(script, operands.data(), locals.data(), result))
        return false;
    std::printf("depth %u, visited %llu, result %lld\n", found.depths[0],
                static_cast<unsigned long long>(found.report.visited), static_cast<long long>(result));
    return true;
}

}

int main(int argc, char **argv) {
    const std::int64_t n = argc > 1 ? std::atol(argv[1]) : 10;
    grain::Verifier verifier;
    const Script good = sum_up_to(n, false), flawed = sum_up_to(n, true);
    return answer(verifier, good) && !answer(verifier, flawed) && answer(verifier, good) ? 0 : 1;
}
