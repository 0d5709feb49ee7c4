// For C++11: a verifier that keeps its memory from one program to the next, and a program file that is freed at the end of its
// scope.
#ifndef GRAIN_VERIFIER_HPP
#define GRAIN_VERIFIER_HPP

#include "grain.h"

#include <stdexcept>
#include <string>
#include <utility>
#include <vector>

namespace grain {

inline std::string text_of(const grain_refusal &refusal) {
    char text[GRAIN_TEXT_SIZE];
    return std::string(text, grain_refusal_text(&refusal, text, sizeof text));
}

inline std::string text_of(const grain_read_error &error) {
    char text[GRAIN_TEXT_SIZE];
    return std::string(text, grain_read_error_text(&error, text, sizeof text));
}

// What a verification returns: the depth and the number of slots of each chunk, or why there are none.
struct Verdict {
    grain_status status;
    std::vector<std::uint16_t> depths;
    std::vector<std::uint32_t> slots;
    grain_report report;

    explicit operator bool() const { return status == GRAIN_ACCEPTED; }

    // Such as "accepted", "out of memory", or the text of the refusal.
    std::string text() const {
        return status == GRAIN_REFUSED ? "refused: " + text_of(report.refusal) : grain_status_text(status);
    }
};

// A program file. A constructor throws if the bytes aren't a file within the limits.
class File {
  public:
    explicit File(const std::vector<std::uint8_t> &bytes, const grain_limits &limits = GRAIN_LIMITS_DEFAULT) : file(nullptr) {
        grain_read_error error = grain_read_error();
        const grain_status status = grain_file_read(&file, bytes.data(), bytes.size(), &limits, &error);
        if (status != GRAIN_ACCEPTED)
            throw std::runtime_error(status == GRAIN_MALFORMED ? text_of(error) : grain_status_text(status));
    }
    ~File() { grain_file_free(file); }
    File(File &&other) noexcept : file(other.file) { other.file = nullptr; }
    File &operator=(File &&other) noexcept { std::swap(file, other.file); return *this; }

    const grain_file *get() const { return file; }
    const grain_contents &contents() const { return *grain_file_contents(file); }

    // The name with an index, or "?" if there is none. It is as the file has it: escape it before it is shown.
    std::string name(std::uint32_t index) const {
        const grain_pools &pools = contents().program.pools;
        if (std::uint64_t(index) + 1 >= pools.starts_len)
            return "?";
        return std::string(pools.names + pools.starts[index], pools.names + pools.starts[index + 1]);
    }

  private:
    grain_file *file;
};

class Verifier {
  public:
    Verifier() = default;
    ~Verifier() { grain_scratch_free(&scratch); }
    Verifier(Verifier &&other) noexcept { std::swap(scratch, other.scratch); }
    Verifier &operator=(Verifier &&other) noexcept { std::swap(scratch, other.scratch); return *this; }

    // Bounds the work by the length of the code: the chunks must not overlap.
    Verdict verify(std::uint16_t caps, const grain_program &program) {
        Verdict found = room_for(program);
        found.status = grain_verify(&scratch, caps, program.code_len, &program, found.depths.data(), found.depths.size(),
                                    found.slots.data(), &found.report);
        return found;
    }

    Verdict verify(std::uint16_t caps, const File &file) {
        const grain_program &program = file.contents().program;
        Verdict found = room_for(program);
        found.status = grain_file_verify(&scratch, file.get(), caps, program.code_len, found.depths.data(),
                                         found.depths.size(), found.slots.data(), &found.report);
        return found;
    }

  private:
    static Verdict room_for(const grain_program &program) {
        return Verdict{GRAIN_ACCEPTED, std::vector<std::uint16_t>(program.chunks_len),
                       std::vector<std::uint32_t>(program.chunks_len), grain_report()};
    }

    grain_scratch scratch = GRAIN_SCRATCH_NONE;
};

// The listing of a chunk.
inline std::string listing(std::uint16_t caps, const grain_program &program, std::uint64_t chunk) {
    std::string text;
    const auto put = [](void *context, const char *part, std::size_t length) {
        try {
            static_cast<std::string *>(context)->append(part, length);
            return 0;
        } catch (...) {
            return 1; // no exception may leave the function
        }
    };
    const grain_status status = grain_listing(caps, &program, chunk, put, &text);
    if (status != GRAIN_ACCEPTED && status != GRAIN_REFUSED && status != GRAIN_BAD_CODE)
        throw std::runtime_error(grain_status_text(status));
    return text;
}

}

#endif
