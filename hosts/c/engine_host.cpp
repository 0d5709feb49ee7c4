// The host of engine_host.c in C++: engine_host_cpp FILE.
#include "engine.hpp"

#include <cstdlib>
#include <fstream>
#include <iostream>
#include <iterator>

using grain::State;
using grain::Values;

enum { TURNS = 1000000 };

static std::string text_of(const char *path) {
    std::ifstream stream(path, std::ios::binary);
    return std::string(std::istreambuf_iterator<char>(stream), std::istreambuf_iterator<char>());
}

// What scripts may import.
static grain::Modules modules() {
    return {{"levels", "fn level(score) { if score < 5 { 1 } else { 2 } }\n"}};
}

static void add_functions(State &state) {
    state.add("limit", 0, [](State &, const Values &) { return Values().add(100); });
    state.add("double", 1, [](State &, const Values &arguments) { return Values().add(2 * arguments.integer(0)); });
    state.add("fetch", 1, [](State &, const Values &arguments) -> Values { throw grain::Thrown{arguments}; });
}

int main(int argc, char **argv) {
    if (argc != 2)
        return EXIT_FAILURE;
    try {
        const grain_bounds bounds = {100000, 16, 200, 4, 65536, 1 << 24};
        State state(text_of(argv[1]), modules(), bounds);
        add_functions(state);
        std::cout << state.run(TURNS).integer(0) << '\n';
        for (std::int64_t n = 1; n <= 3; n++)
            std::cout << state.call("score", Values().add(n), TURNS).integer(0) << '\n';
        return EXIT_SUCCESS;
    } catch (const grain::RunError &error) {
        std::cout << error.what() << '\n';
        return EXIT_FAILURE;
    } catch (const std::exception &error) {
        std::cout << error.what();
        return EXIT_FAILURE;
    }
}
