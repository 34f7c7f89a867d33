// The classes where memory is refused. For each call and each k the k-th allocation of the call is refused, be it the
// library's or one of C++: the call throws std::bad_alloc, each text is as it was, and the same call does what it should when
// it is made again. The ropes share their chunks with a snapshot meanwhile, which keeps its text, and in other runs with none.
// What takes no memory succeeds where all is refused. In the end nothing that was allocated is left. The last line printed
// is 'N passed, M failed'.
#include <cstdio>
#include <cstdlib>
#include <new>
#include <optional>
#include <string>
#include <utility>

#include <str_index.hpp>
#include <str_rope.hpp>

extern "C" {
#include "refused_memory.h"
}

// The memory of C++ is that of the C library, so it is refused and counted with the library's.
void *operator new(std::size_t size)
{
    void *block = std::malloc(size != 0 ? size : 1);
    if (block == nullptr)
        throw std::bad_alloc();
    return block;
}

void operator delete(void *block) noexcept
{
    std::free(block);
}

void operator delete(void *block, std::size_t) noexcept
{
    std::free(block);
}

namespace {

using pauskern::encoding;
using pauskern::owned_index;
using pauskern::rope;
using pauskern::text_index;

std::size_t passed, failed;

void same(bool right, const char *call, long number = 0)
{
    passed += right;
    failed += !right;
    if (!right)
        std::printf("%s, allocation %ld\n", call, number);
}

const std::string whole(40000, 'a'), longer(60000, 'b');

// The texts that a call changes or makes. The ropes before it are `whole` and "other".
struct state {
    rope text = rope(whole), other = rope("other");
    std::string copy;
    std::optional<text_index> index;
    std::optional<owned_index> owned;

    bool is_before() const { return text == whole && other == "other" && copy.empty() && !index && !owned; }
};

// A call, and whether a state is as it should be after it.
struct call {
    const char *name;
    void (*make)(state &);
    bool (*is_made)(const state &);
};

// Whether a text is `whole` with a part of it replaced.
bool has_replaced(const rope &text, std::size_t from, std::size_t to, const std::string &put)
{
    return text == std::string(whole).replace(from, to - from, put);
}

const call calls[] = {
    {"a rope", [](state &of) { of.other = rope(longer); }, [](const state &of) { return of.other == longer; }},
    {"assign", [](state &of) { of.text.assign(longer); }, [](const state &of) { return of.text == longer; }},
    {"a copy", [](state &of) { of.other = rope(of.text); }, [](const state &of) { return of.other == whole; }},
    {"a copy by assignment", [](state &of) { of.other = of.text; },
     [](const state &of) { return of.other == of.text; }},
    {"insert", [](state &of) { of.text.insert(20000, "b"); },
     [](const state &of) { return has_replaced(of.text, 20000, 20000, "b"); }},
    {"a long insert", [](state &of) { of.text.insert(20000, longer); },
     [](const state &of) { return has_replaced(of.text, 20000, 20000, longer); }},
    {"append", [](state &of) { of.text.append(longer); }, [](const state &of) { return of.text == whole + longer; }},
    {"append a rope", [](state &of) { of.text.append(std::move(of.other)); },
     [](const state &of) { return of.text == whole + "other" && of.other.empty(); }},
    {"remove",
     [](state &of) {
         of.text.remove({777, 39001});
     },
     [](const state &of) { return has_replaced(of.text, 777, 39001, ""); }},
    {"replace",
     [](state &of) {
         of.text.replace({9, 30000}, longer);
     },
     [](const state &of) { return has_replaced(of.text, 9, 30000, longer); }},
    {"split_off", [](state &of) { of.other = of.text.split_off(20001); },
     [](const state &of) { return has_replaced(of.text, 20001, 40000, "") && of.other == whole.substr(20001); }},
    {"change",
     [](state &of) {
         of.text.change(encoding::utf16, {{0, 9}, {1, 0}}, "b");
     },
     [](const state &of) { return has_replaced(of.text, 9, 40000, "b"); }},
    {"change_exact",
     [](state &of) {
         of.text.change_exact(encoding::utf8, {{0, 1}, {0, 2}}, longer);
     },
     [](const state &of) { return has_replaced(of.text, 1, 2, longer); }},
    {"text", [](state &of) { of.copy = of.text.text(); }, [](const state &of) { return of.copy == whole; }},
    {"a part's text",
     [](state &of) {
         of.copy = of.text.text({9, 900});
     },
     [](const state &of) { return of.copy == whole.substr(9, 891); }},
    {"an index", [](state &of) { of.index.emplace(std::string_view(whole)); },
     [](const state &of) { return of.index->size() == whole.size() && of.text == whole; }},
    {"an owned index", [](state &of) { of.owned.emplace(whole); },
     [](const state &of) { return (*of.owned)->text() == whole && of.text == whole; }},
};

// Whether the call throws std::bad_alloc where its k-th allocation is refused.
bool is_refused(const call &one, state &of, long k)
{
    bool right = false;
    allocations = 0;
    refused = k;
    try {
        one.make(of);
    } catch (const std::bad_alloc &) {
        right = true;
    }
    refused = NEVER;
    return right;
}

// The call with its k-th allocation refused, and again; whether it came as far as that allocation.
bool try_refused(const call &one, bool is_shared, long k)
{
    state of;
    rope snapshot;
    if (is_shared)
        snapshot = of.text;
    const bool right = is_refused(one, of, k), came = allocations >= k;
    same(right == came, one.name, k);
    if (came) {
        same(of.is_before(), "what a refusal leaves", k);
        one.make(of);
    }
    same(one.is_made(of), one.name, k);
    same(!is_shared || snapshot == whole, "the snapshot", k);
    return came;
}

void try_each(const call &one, bool is_shared)
{
    const long before = living;
    long k = 1;
    while (k < MOST_ALLOCATIONS && failed == 0 && try_refused(one, is_shared, k))
        k++;
    same((1 < k || !is_shared) && k < MOST_ALLOCATIONS, "how many allocations there are", k - 1);
    same(living == before, "what is left over", living - before);
}

// Calls that take no memory.
void taking_none()
{
    rope text(whole), rest = text;
    const text_index index{std::string_view(whole)};
    refused = ALWAYS;
    const long before = allocations;
    rope moved = std::move(text), empty, none = empty;
    swap(moved, empty);
    text = std::move(empty);
    same(text == whole && text == rest && none.empty() && text.lines()[0].size() == whole.size(), "questions");
    same(index.position_of(pauskern::line_type::crlf, encoding::utf8, 9) == pauskern::position{0, 9},
         "questions of an index");
    text.remove({0, whole.size()});
    rest.clear();
    same(text.empty() && rest.empty() && allocations == before, "what is taken by calls that take none");
    refused = NEVER;
}

} // namespace

int main()
{
    // standard output takes its memory now
    std::printf("\n");
    const long before = living;
    for (const call &one : calls) {
        try_each(one, false);
        try_each(one, true);
    }
    taking_none();
    same(living == before, "what is left in the end");
    std::printf("%zu passed, %zu failed\n", passed, failed);
    return failed != 0;
}
