// Verifies programs whose lists are vectors, most of them empty: data() of an empty vector, which may be NULL, is passed on.
#include "verifier.hpp"

#include <iostream>

namespace {

struct Parts {
    std::vector<std::uint8_t> code;
    std::vector<grain_chunk> chunks;
    std::vector<grain_constant> constants;
    std::vector<std::uint8_t> names;
    std::vector<std::uint32_t> starts;
    std::vector<grain_chain> chains;
    std::vector<grain_step> steps;
    std::vector<grain_switch> switches;
    std::vector<grain_case> cases;
    std::vector<std::uint32_t> ranges;

    grain_program program() const {
        grain_pools pools = {constants.data(), constants.size(), names.data(), names.size(), starts.data(), starts.size(),
                             0, 0, 0, 0, chains.data(), chains.size(), steps.data(), steps.size(), switches.data(),
                             switches.size(), cases.data(), cases.size(), ranges.data(), ranges.size()};
        return grain_program{code.data(), code.size(), chunks.data(), chunks.size(), pools};
    }
};

bool verify(grain::Verifier &verifier, const Parts &parts) {
    grain::Verdict found = verifier.verify(GRAIN_CAP_ALL, parts.program());
    if (found.status == GRAIN_ACCEPTED) {
        std::cout << "accepted";
        for (std::uint16_t depth : found.depths)
            std::cout << ' ' << depth;
        std::cout << '\n';
    } else if (found.status == GRAIN_REFUSED) {
        std::cout << "refused " << grain::text_of(found.report.refusal) << '\n';
    } else {
        std::cout << "status " << found.status << '\n';
    }
    return found.status == GRAIN_ACCEPTED;
}

}

int main() {
    grain::Verifier verifier;
    Parts nothing, unit, lacking;
    unit.code = {GRAIN_TAG_UNIT, GRAIN_TAG_RETURN};
    unit.chunks = {{0, 2, 1}};
    lacking.code = {GRAIN_TAG_POP, GRAIN_TAG_RETURN};
    lacking.chunks = {{0, 2, 1}};
    grain::Verifier moved = std::move(verifier);
    return verify(moved, nothing) && verify(moved, unit) && !verify(moved, lacking) ? 0 : 1;
}
