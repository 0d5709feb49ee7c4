// Reads and verifies what `grain compile` makes of a script, and prints how many operands and slots each function needs.
//
//     script FILE
#include "verifier.hpp"

#include <exception>
#include <fstream>
#include <iostream>
#include <iterator>

namespace {

// The host has functions, and no other feature that a program can declare.
const std::uint16_t caps = GRAIN_CAP_FUNCTION;

void print_needs(const grain::File &file, const grain::Verdict &verdict) {
    for (std::size_t chunk = 0; chunk < verdict.depths.size(); chunk++) {
        const std::string name = chunk == 0 ? "main" : file.name(file.contents().functions[chunk - 1].name);
        std::cout << name << ": " << verdict.depths[chunk] << " operands, " << verdict.slots[chunk] << " slots\n";
    }
}

}

int main(int argc, char **argv) {
    try {
        std::ifstream stream(argc == 2 ? argv[1] : "", std::ios::binary);
        const grain::File file(std::vector<std::uint8_t>(std::istreambuf_iterator<char>(stream), {}));
        const grain::Verdict verdict = grain::Verifier().verify(caps, file);
        const std::uint64_t chunk = verdict.report.refusal.chunk;
        if (verdict)
            print_needs(file, verdict);
        else
            std::cout << verdict.text() << '\n';
        if (verdict.status == GRAIN_REFUSED && chunk != GRAIN_WHOLE_PROGRAM)
            std::cout << grain::listing(file.contents().caps, file.contents().program, chunk);
        return verdict ? 0 : 1;
    } catch (const std::exception &error) {
        std::cerr << error.what() << '\n';
        return 2;
    }
}
