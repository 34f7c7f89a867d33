// Times a text that changes in a buffer that people know. Its words and lines are those of ../rope.rt.txt, where the first
// word is that of the buffer, and the job is times or memory. A row that the buffer has no answer for is left out, and `-`
// stands for a check sum that those of the others cannot equal, since it is of places or lengths in another unit than bytes.
#include "peer.h"

#include <malloc.h>

#include <algorithm>
#include <chrono>
#include <cstdint>
#include <cstdio>
#include <cstdlib>
#include <fstream>
#include <iterator>
#include <optional>

namespace {

// How many calls are timed together.
constexpr std::size_t BATCH = 100;

// How often a timing is taken where the best counts.
constexpr int TIMINGS = 3;

// How many bytes a page of memory has.
constexpr std::size_t PAGE = 4096;

using Sum = std::optional<std::uint64_t>;
using Times = std::vector<std::uint64_t>;
using Clock = std::chrono::steady_clock;

// How much is done.
struct Scale {
    std::size_t questions;
    std::size_t rounds;
    std::size_t changes;
};

[[noreturn]] void fail(const char *why)
{
    std::fprintf(stderr, "peers: %s\n", why);
    std::exit(2);
}

void tell(const char *name, std::uint64_t figure, Sum sum)
{
    std::printf("%s %llu %s\n", name, static_cast<unsigned long long>(figure),
                sum ? std::to_string(*sum).c_str() : "-");
    std::fflush(stdout);
}

std::uint64_t since(Clock::time_point start)
{
    return static_cast<std::uint64_t>(std::chrono::nanoseconds(Clock::now() - start).count());
}

// A check sum of all bytes and their order.
std::uint64_t hashed(std::string_view text)
{
    std::uint64_t sum = 0;
    for (const char byte : text)
        sum = sum * 31 + static_cast<unsigned char>(byte);
    return sum;
}

// Makes the calls, and takes the nanoseconds of one of each batch; answers a check sum of the first batch.
std::uint64_t timed(Buffer &buffer, const std::vector<Call> &calls, Times &times)
{
    std::uint64_t sum = 0;
    std::optional<std::uint64_t> first;
    for (std::size_t at = 0; at < calls.size(); at += BATCH) {
        const std::size_t end = std::min(at + BATCH, calls.size());
        const auto start = Clock::now();
        for (std::size_t i = at; i < end; i++)
            sum += made(buffer, calls[i], sum);
        times.push_back(since(start) / (end - at));
        first = first.value_or(sum);
    }
    return first.value_or(0);
}

std::uint64_t median(Times times)
{
    std::sort(times.begin(), times.end());
    return times.empty() ? 0 : times[times.size() / 2];
}

// Megabytes a second, of the best of a few timings. What is left to do after each is not timed.
template <typename Once, typename After> std::uint64_t rate(std::size_t bytes, Once once, After after)
{
    const std::size_t repeats = 1000000 / std::clamp<std::size_t>(bytes, 1, 1000000);
    std::uint64_t best = UINT64_MAX;
    for (int timing = 0; timing < TIMINGS; timing++) {
        const auto start = Clock::now();
        for (std::size_t i = 0; i < repeats; i++)
            once();
        best = std::min(best, since(start));
        after();
    }
    return bytes * repeats * 1000 / std::max<std::uint64_t>(best, 1);
}

void tell_questions(Buffer &buffer, const std::string &source, std::size_t calls)
{
    const auto lines = static_cast<std::size_t>(std::count(source.begin(), source.end(), '\n'));
    const auto places = [&source](Unit unit) { return places_in(source, unit); };
    const bool in_bytes = way.unit == Unit::byte;
    const struct {
        const char *name;
        Kind kind;
        std::size_t n;
        bool is_asked;
        bool is_summed;
    } rows[] = {
        {"line", Kind::of_line, lines, true, in_bytes},
        {"line-of", Kind::line_of, places(way.unit), true, in_bytes},
        {"char", Kind::of_character, places(Unit::character), way.finds_characters, in_bytes},
        {"utf16", Kind::of_utf16, places(Unit::utf16), way.finds_utf16, in_bytes},
        {"lines", Kind::lines, lines, true, way.unit != Unit::utf16},
    };
    for (const auto &row : rows) {
        if (!row.is_asked)
            continue;
        Times times;
        const std::uint64_t sum = timed(buffer, questions(row.kind, row.n, calls), times);
        tell(row.name, median(times), row.is_summed ? Sum(sum) : std::nullopt);
    }
}

// The rounds of changes, each of a fresh text: as many bytes are put in as are taken out, or almost.
void tell_changes(const std::string &source, const Scale &scale)
{
    struct {
        const char *name;
        Change change;
        Times times;
    } rows[] = {
        {"remove", Change::remove, {}},
        {"backspace", Change::backspace, {}},
        {"insert", Change::insert, {}},
        {"typing", Change::type, {}},
    };
    std::uint64_t sum = 0;
    for (std::size_t round = 0; round < scale.rounds; round++) {
        Twin twin(source, way.unit);
        const auto buffer = buffer_of(source);
        for (auto &row : rows)
            timed(*buffer, changes(twin, row.change, round, scale.changes), row.times);
        sum += hashed(buffer->text());
    }
    for (const auto &row : rows)
        tell(row.name, median(row.times), sum);
}

void tell_times(const std::string &source, const Scale &scale)
{
    std::unique_ptr<Buffer> buffer;
    const auto drop = [&] { buffer.reset(); };
    const auto load = [&] {
        drop();
        buffer = buffer_of(source);
    };
    const std::uint64_t loading = rate(source.size(), load, drop);
    load();
    tell("load", loading, hashed(buffer->text()));
    std::size_t read = 0;
    const std::uint64_t reading = rate(
        source.size(), [&] { read = buffer->copy_all(); }, [] {});
    tell("read", reading, way.unit == Unit::utf16 ? std::nullopt : Sum(read));
    tell_questions(*buffer, source, scale.questions);
    drop();
    tell_changes(source, scale);
}

// How many bytes of memory the process has.
std::size_t memory()
{
    std::ifstream pages("/proc/self/statm");
    std::size_t all = 0;
    std::size_t resident = 0;
    pages >> all >> resident;
    return resident * PAGE;
}

void tell_size(const char *name, std::size_t before, std::size_t bytes)
{
    const std::size_t now = memory();
    tell(name, now > before ? now - before : 0, bytes);
}

// Tells the memory that a text takes after a load and, where there are any, after inserts, each with the text's bytes. The
// inserts are found first, and what was free after that is given back, so that it is counted where it is used again.
void tell_memory(const std::string &source, std::size_t inserts)
{
    std::vector<Call> calls;
    std::size_t bytes = source.size();
    {
        Twin twin(source, way.unit);
        for (std::size_t round = 0; round < inserts / BATCH; round++) {
            const std::vector<Call> more = changes(twin, Change::insert, round, BATCH);
            calls.insert(calls.end(), more.begin(), more.end());
        }
        bytes = twin.bytes();
    }
    // What the first buffer of a process brings with it is not the text's.
    buffer_of("\n").reset();
    malloc_trim(0);
    const std::size_t before = memory();
    const auto buffer = buffer_of(source);
    tell_size("loaded", before, source.size());
    if (calls.empty())
        return;
    for (const Call &call : calls)
        made(*buffer, call, 0);
    tell_size("inserted", before, bytes);
}

std::string text_of(const char *file)
{
    std::ifstream text(file, std::ios::binary);
    if (!text)
        fail("there is no such text");
    return {std::istreambuf_iterator<char>(text), {}};
}

} // namespace

int main(int number, char **words)
{
    const std::vector<std::string> given(words + std::min(number, 4), words + number);
    std::vector<std::size_t> numbers;
    for (const std::string &word : given)
        numbers.push_back(std::strtoull(word.c_str(), nullptr, 10));
    const std::string job = number > 3 ? words[3] : "";
    if (number < 4 || std::string(words[1]) != way.name)
        fail("a way, which is that of this program, a file and a job");
    if (job == "times" && numbers.size() == 3)
        tell_times(text_of(words[2]), {numbers[0], numbers[1], numbers[2]});
    else if (job == "memory" && numbers.size() == 1)
        tell_memory(text_of(words[2]), numbers[0]);
    else
        fail("the jobs are times, with three numbers, and memory, with one");
    return 0;
}
