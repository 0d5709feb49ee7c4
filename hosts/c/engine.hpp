// For C++11: states of scripts that are freed at the end of their scope, with functions of the host as callables. What one throws
// never passes through the library: it is called between two calls of it.
#ifndef GRAIN_ENGINE_HPP
#define GRAIN_ENGINE_HPP

#include "grain_engine.h"

#include <functional>
#include <map>
#include <new>
#include <stdexcept>
#include <string>
#include <utility>
#include <vector>

namespace grain {

// Values, one after another, as rows with the bytes of their texts.
class Values {
  public:
    Values() : count_(0) {}
    explicit Values(const grain_values &from)
        : rows_(from.rows, from.rows + from.rows_len), texts_(from.texts, from.texts + from.texts_len), count_(from.count) {}

    Values &add(std::int64_t number) { return add_row(grain_integer(number)); }
    Values &add_float(double number) { return add_row(grain_float(number)); }
    Values &add_bool(bool value) { return add_row(grain_bool(value)); }
    Values &add_unit() { return add_row(grain_unit()); }
    Values &add_foreign(std::int64_t kind, std::int64_t number) {
        grain_value rows[4];
        grain_foreign(rows, kind, number);
        rows_.insert(rows_.end(), rows, rows + 4);
        count_++;
        return *this;
    }
    Values &add_text(const std::string &text) {
        add_row(grain_text(static_cast<std::int64_t>(texts_.size()), static_cast<std::uint32_t>(text.size())));
        texts_.insert(texts_.end(), text.begin(), text.end());
        return *this;
    }

    std::uint32_t count() const { return count_; }
    const std::vector<grain_value> &rows() const { return rows_; }

    // The integer, the float, or the text, that a row is. It throws if the row is something else.
    std::int64_t integer(std::size_t row) const { return row_of(row, GRAIN_VALUE_INTEGER).number; }
    double number(std::size_t row) const { return grain_double(&row_of(row, GRAIN_VALUE_FLOAT)); }
    std::string text(std::size_t row) const {
        const grain_value &found = row_of(row, GRAIN_VALUE_TEXT);
        const auto from = texts_.begin() + static_cast<std::ptrdiff_t>(found.number);
        return std::string(from, from + static_cast<std::ptrdiff_t>(found.count));
    }

    grain_values get() const {
        grain_values all = {rows_.data(), rows_.size(), texts_.data(), texts_.size(), count_};
        return all;
    }

  private:
    Values &add_row(const grain_value &row) {
        rows_.push_back(row);
        count_++;
        return *this;
    }
    const grain_value &row_of(std::size_t row, std::uint32_t tag) const {
        if (row >= rows_.size() || rows_[row].tag != tag)
            throw std::invalid_argument("a value is of another type");
        return rows_[row];
    }

    std::vector<grain_value> rows_;
    std::vector<std::uint8_t> texts_;
    std::uint32_t count_;
};

// Why a run has no value. If its turns are used up, it can be resumed.
class RunError : public std::runtime_error {
  public:
    explicit RunError(const std::string &why, bool is_paused = false) : std::runtime_error(why), is_paused_(is_paused) {}
    bool is_paused() const { return is_paused_; }

  private:
    bool is_paused_;
};

// A run has failed. If the script threw a value without closures' variables in it, that is `thrown`; otherwise it has no values.
class Fault : public RunError {
  public:
    Fault(const std::string &why, const grain_failure &failure, const Values &thrown)
        : RunError(why), failure(failure), thrown(thrown) {}
    grain_failure failure;
    Values thrown;
};

// A function of the host throws it to throw a value that the script may catch.
struct Thrown {
    Values value;
};

// The texts of modules that a script may import, by their names.
using Modules = std::map<std::string, std::string>;

// The variables of a script, and its runs.
class State {
  public:
    using Function = std::function<Values(State &, const Values &)>;

    // Compiles a script. It throws a report with the line if the text has an error.
    explicit State(const std::string &source, const grain_bounds &bounds = GRAIN_BOUNDS_DEFAULT) : state_(nullptr) {
        char report[REPORT_SIZE] = "";
        check_compiled(grain_state_compile(&state_, source.data(), source.size(), &bounds, report, sizeof report), report);
    }
    // Compiles a script and the modules that it imports. A report of an error in a module begins with the module's name.
    State(const std::string &source, const Modules &modules, const grain_bounds &bounds = GRAIN_BOUNDS_DEFAULT)
        : state_(nullptr) {
        char report[REPORT_SIZE] = "";
        std::vector<grain_module> list;
        for (const auto &each : modules) {
            const grain_module module = {each.first.data(), each.first.size(), each.second.data(), each.second.size()};
            list.push_back(module);
        }
        check_compiled(grain_state_compile_modules(&state_, source.data(), source.size(), list.data(), list.size(), &bounds,
                                                   report, sizeof report),
                       report);
    }
    ~State() { grain_state_free(state_); }
    State(State &&other) noexcept : state_(other.state_), functions_(std::move(other.functions_)) { other.state_ = nullptr; }
    State &operator=(State &&other) noexcept {
        std::swap(state_, other.state_);
        std::swap(functions_, other.functions_);
        return *this;
    }

    // Another state of the same script, which shares its program and has no functions yet.
    State another(const grain_bounds &bounds = GRAIN_BOUNDS_DEFAULT) {
        grain_state *made = nullptr;
        check(grain_state_another(&made, state_, &bounds));
        return State(made);
    }

    grain_state *get() { return state_; }

    void add(const std::string &name, std::uint32_t parameters, Function function) {
        check(grain_state_register(state_, name.data(), name.size(), parameters));
        functions_[std::make_pair(name, parameters)] = std::move(function);
    }

    // Runs the top level, or a function, for at most this number of turns.
    Values run(std::uint64_t turns) {
        check(grain_state_begin(state_, nullptr, 0, nullptr));
        return resume(turns);
    }
    Values call(const std::string &name, const Values &arguments, std::uint64_t turns) {
        const grain_values rows = arguments.get();
        check(grain_state_begin(state_, name.data(), name.size(), &rows));
        return resume(turns);
    }

    // Resumes the last run. Whatever a function of the host throws, other than Thrown, ends the run and is thrown on.
    Values resume(std::uint64_t turns) {
        for (;;) {
            std::uint64_t used = 0;
            const grain_event event = grain_state_resume(state_, turns, &used);
            turns -= used;
            switch (event) {
            case GRAIN_EVENT_RETURNED: return Values(asked().values);
            case GRAIN_EVENT_CALLS: serve_or_stop(); break;
            case GRAIN_EVENT_PAUSED: throw RunError("the turns are used up", true);
            case GRAIN_EVENT_FAULTED: throw fault();
            case GRAIN_EVENT_OUT_OF_MEMORY: throw std::bad_alloc();
            case GRAIN_EVENT_IDLE: throw RunError("no run is under way");
            }
        }
    }

    void stop() { grain_state_stop(state_); }
    void reset() { grain_state_reset(state_); }

    // The values of the host's own of which no copy is left, four rows each.
    Values dropped() {
        grain_values values = grain_values();
        check(grain_state_dropped(state_, &values));
        return Values(values);
    }

    // What was printed since it was last taken.
    std::string take_printed() {
        const std::string text = text_by(grain_state_printed);
        grain_state_take_printed(state_);
        return text;
    }

  private:
    enum { REPORT_SIZE = 1024 };

    explicit State(grain_state *state) : state_(state) {}
    static void check_compiled(grain_status status, const char *report) {
        if (status == GRAIN_NO_SCRIPT)
            throw std::runtime_error(report);
        check(status);
    }
    static void check(grain_status status) {
        if (status == GRAIN_OUT_OF_MEMORY)
            throw std::bad_alloc();
        if (status != GRAIN_ACCEPTED)
            throw RunError(grain_status_text(status));
    }
    std::string text_by(std::size_t (*write)(grain_state *, char *, std::size_t)) {
        std::vector<char> text(write(state_, nullptr, 0) + 1);
        write(state_, text.data(), text.size());
        return text.data();
    }
    // Why the last run has just failed.
    Fault fault() {
        grain_failure failure = grain_failure();
        check(grain_state_failure(state_, &failure));
        grain_asked shown = grain_asked();
        const bool has_thrown = grain_state_asked(state_, &shown) == GRAIN_ACCEPTED;
        const Values thrown = has_thrown ? Values(shown.values) : Values();
        return Fault(text_by(grain_state_fault), failure, thrown);
    }
    grain_asked asked() {
        grain_asked shown = grain_asked();
        check(grain_state_asked(state_, &shown));
        return shown;
    }
    void serve_or_stop() {
        try {
            serve();
        } catch (...) {
            grain_state_stop(state_);
            throw;
        }
    }
    void serve() {
        const grain_asked shown = asked();
        const Values arguments(shown.values);
        const auto found = functions_.find(std::make_pair(std::string(shown.name, shown.name_len), arguments.count()));
        if (found == functions_.end())
            throw RunError("no function of this name");
        try {
            const Values answer = found->second(*this, arguments);
            const grain_values rows = answer.get();
            check(grain_state_answer(state_, &rows));
        } catch (const Thrown &thrown) {
            const grain_values rows = thrown.value.get();
            check(grain_state_throw(state_, &rows));
        }
    }

    grain_state *state_;
    std::map<std::pair<std::string, std::uint32_t>, Function> functions_;
};

} // namespace grain

#endif
