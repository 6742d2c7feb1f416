// rheap.hpp: each of its types and calls, refused and not, with exceptions and without them. Prints
// nothing where all is as it should be.
#include "rheap.hpp"

#include "rheap_array.h"
#include <cstdio>
#include <cstring>
#include <unordered_map>
#include <vector>

namespace {

int wrong = 0;

void expect(bool holds, const char *what, int line) {
    if (!holds) {
        std::printf("line %d: %s\n", line, what);
        wrong = 1;
    }
}

#define IS(what) expect(what, #what, __LINE__)

// Whether `work` is refused so.
template <class Work>
bool throws(rh::status why, Work work) {
#if defined(__cpp_exceptions)
    try {
        work();
    } catch (const rh::error &e) {
        return e.status() == why && e.code() == why && std::strstr(e.what(), name(why)) != nullptr;
    }
    return false;
#else
    (void)work;
    return why != rh::status::done;
#endif
}

const rh::sizes small{4096, 40, 32, 3, 8};

// What compiles, and what doesn't.
template <class What, class = void>
struct is_stored : std::false_type {};
template <class What>
struct is_stored<What, std::void_t<decltype(std::declval<rh::heap &>().try_store(
                           rh::root{}, 0u, std::declval<What>()))>> : std::true_type {};

static_assert(is_stored<int>() && is_stored<std::uint64_t>() && is_stored<rh::nil_t>(), "");
static_assert(is_stored<rh::root>() && is_stored<rh::scoped_root &>(), "");
static_assert(!is_stored<double>() && !is_stored<const char *>(), "");
static_assert(std::is_nothrow_move_constructible_v<rh::heap>, "");
static_assert(!std::is_copy_constructible_v<rh::heap>, "");
static_assert(std::is_nothrow_move_assignable_v<rh::scoped_root>, "");
static_assert(!std::is_copy_constructible_v<rh::scoped_root>, "");
static_assert(std::is_convertible_v<rh::scoped_root &, rh::root>, "");
static_assert(std::is_convertible_v<const rh::scoped_root &, rh::root>, "");
static_assert(!std::is_convertible_v<rh::scoped_root, rh::root>, "");
static_assert(!std::is_convertible_v<const rh::scoped_root, rh::root>, "");

void values() {
    rh::heap heap(small);
    const rh::root pair{1, 0}, other{1, 1};
    heap.alloc(pair, 4);
    heap.store(pair, 0, 7);
    heap.store(pair, 1, pair);
    heap.store(pair, 2, rh::nil);
    heap.alloc_raw(other, 2);
    heap.store(pair, 3, other);
    IS(heap.peek(pair, 0) == rh::value(std::int64_t{7}));
    IS(heap.peek(pair, 1) == rh::value(rh::object{4}));
    IS(heap.peek(pair, 2) == rh::value(rh::nil));
    IS(heap.peek(pair, 3) == rh::value(rh::raw_object{2}));
    IS(std::get<std::int64_t>(heap.load(other, pair, 0)) == 7);
    IS(heap.get(other) == rh::value(std::int64_t{7}));
    IS(heap.fields(pair) == 4);
    const auto seven = heap.try_peek(pair, 0), missing = heap.try_peek(pair, 4);
    IS(seven && std::get<std::int64_t>(*seven) == 7 && seven->index() == 1);
    IS(seven.value() == rh::value(std::int64_t{7}) && seven.value_or(rh::nil) == *seven);
    IS(missing.value_or(rh::object{4}) == rh::value(rh::object{4}));
    IS(throws(rh::status::no_field, [&] { (void)missing.value(); }));
    IS(heap.try_peek(pair, 1)->index() == 2);
    auto changed = heap.try_peek(pair, 0);
    *changed = rh::nil;
    IS(changed->index() == 0 && changed.value() == rh::value(rh::nil));
    IS(std::holds_alternative<rh::nil_t>(*heap.try_peek(pair, 2)));
    heap.load(other, pair, 1);
    IS(heap.same(pair, other));
    heap.drop(other);
    IS(!heap.same(pair, other));
    heap.copy(other, pair);
    IS(heap.same(pair, other));
    heap.insist_store(pair, 0, RHEAP_MIN_INT);
    IS(std::get<std::int64_t>(heap.peek(pair, 0)) == RHEAP_MIN_INT);
    heap.insist_store(pair, 0, rh::nil);
    heap.insist_store(pair, 0, other);
    heap.insist_alloc_raw(other, 1);
    heap.insist_alloc(other, 1);
    heap.collect();
    heap.increment();
    IS(heap.stat().used == 13);
    IS(heap.stat().flips == 1);
    IS(heap.last_did().flipped == 1 || heap.stat().cycle == 0);
    IS(heap.pace().mark > 0);
    IS(heap.room(3).need == 5);
}

void rows() {
    rh::heap heap(small);
    const rh::root row{1, 0};
    std::vector<std::int64_t> numbers{1, 2, 3}, none;
    std::array<std::int64_t, 5> read{};
    heap.alloc(row, 20);
    heap.insist_store_ints(row, 1, numbers);
    IS(heap.load_ints(row, 1, read) == 3);
    IS(read[2] == 3 && read[3] == 0);
    heap.store_ints(row, 1, none);
    heap.store_ints(row, 1, numbers);
    heap.insist_store_ints(row, 1, none);
    IS(heap.load_ints(row, 1, none) == 0);
    heap.store_text(row, 10, "managed heaps!");
    heap.insist_store_text(row, 10, "a managed heap");
    heap.insist_store_text(row, 10, std::string_view());
    IS(heap.load_text(row, 10, 14) == "a managed heap");
    IS(heap.load_text(row, 10, 30) == std::string("a managed heap").substr(0, 14));
    IS(heap.load_text(row, 10, 0).empty());
    IS(heap.try_load_text(row, 19, nullptr, 0).value_or(9) == 0);
    IS(throws(rh::status::no_field, [&] { heap.load_text(row, 19, 8); }));
    IS(throws(rh::status::no_field, [&] { heap.insist_store_ints(row, 18, numbers); }));
    IS(throws(rh::status::no_field, [&] { heap.store_ints(row, 18, numbers); }));
    IS(throws(rh::status::no_field, [&] { heap.store_text(row, 19, "a managed heap"); }));
    IS(throws(rh::status::no_field, [&] { heap.insist_store_text(row, 19, "a managed heap"); }));
    IS(throws(rh::status::no_field, [&] { heap.load_ints(row, 18, read); }));
}

void refusals() {
    rh::heap heap(small);
    const rh::root mine{1, 0}, theirs{2, 0}, shared{0, 0}, nowhere{1, 8};
    IS(heap.try_alloc(nowhere, 1).status() == rh::status::no_root);
    IS(heap.try_alloc(mine, 4096).status() == rh::status::fields_range);
    IS(heap.try_alloc_raw(mine, 4095).status() == rh::status::space_full);
    IS(heap.try_insist_alloc(mine, 4095).status() == rh::status::space_full);
    IS(heap.try_insist_alloc_raw(mine, 4096).status() == rh::status::fields_range);
    IS(heap.try_peek(mine, 0).status() == rh::status::not_object);
    IS(heap.try_fields(mine).status() == rh::status::not_object);
    IS(heap.try_load(mine, mine, 0).status() == rh::status::not_object);
    IS(bool(heap.try_alloc_raw(mine, 1)));
    IS(bool(heap.try_alloc(theirs, 1)));
    IS(heap.try_store(mine, 1, 1).status() == rh::status::no_field);
    IS(heap.try_store(mine, 0, mine).status() == rh::status::raw_field);
    IS(heap.try_store(mine, 0, theirs).status() == rh::status::not_yours);
    IS(heap.try_copy(mine, theirs).status() == rh::status::not_yours);
    IS(heap.try_same(mine, theirs).status() == rh::status::not_yours);
    IS(bool(heap.try_copy(shared, theirs)) && bool(heap.try_copy(mine, shared)));
    IS(heap.try_same(mine, shared).value_or(false));
    IS(heap.try_store(mine, 0, UINT64_MAX).status() == rh::status::int_range);
    IS(heap.try_insist_store(mine, 0, INT64_MAX).status() == rh::status::int_range);
    IS(heap.try_insist_store(mine, 1, rh::nil).status() == rh::status::no_field);
    IS(heap.try_insist_store(nowhere, 1, mine).status() == rh::status::no_root);
    IS(heap.try_store(mine, 0, rh::nil).status() == rh::status::done);
    IS(heap.try_drop(nowhere).status() == rh::status::no_root);
    IS(heap.try_get(nowhere).status() == rh::status::no_root);
    IS(throws(rh::status::no_root, [&] { heap.alloc(nowhere, 1); }));
    IS(throws(rh::status::not_yours, [&] { heap.copy(mine, theirs); }));
    IS(throws(rh::status::no_field, [&] { heap.store(mine, 9, 1); }));
    IS(heap.try_open(small).status() == rh::status::is_open);
    IS(throws(rh::status::bad_sizes, [&] { rh::heap(rh::sizes{1000, 4, 65}); }));
    IS(throws(rh::status::no_pace, [&] { rh::heap(rh::sizes{1000, 4}, 1000); }));
    IS(rh::heap().try_open({1000, 4, 3}).status() == rh::status::no_pace);
    IS(make_error_code(rh::status::no_memory) == std::errc::not_enough_memory);
    IS(make_error_code(rh::status::log_full).message() == "LOG_FULL");
    IS(std::strcmp(make_error_code(rh::status::log_full).category().name(), "rheap") == 0);
}

// Objects with their values.
void objects_with_values() {
    rh::heap heap(small);
    rh::slots slots(heap, 1, 0, 4);
    rh::scoped_root list(slots), other(slots);
    for (int n = 1; n <= 3; n++) heap.make(list, {n, list});
    IS(heap.peek(list, 0) == rh::value(std::int64_t{3}));
    IS(heap.load_path(other, list, {1, 1, 0}) == rh::value(std::int64_t{1}));
    IS(heap.get(other) == rh::value(std::int64_t{1}));
    heap.insist_make(list, 4, {rh::nil, 7u, other});
    IS(heap.fields(list) == 4 && heap.peek(list, 0) == rh::value(rh::nil));
    IS(heap.peek(list, 1) == rh::value(std::int64_t{7}));
    IS(heap.peek(list, 2) == rh::value(std::int64_t{1}));
    IS(heap.peek(list, 3) == rh::value(rh::nil));
    heap.make_raw(list, {1, other, true});
    IS(heap.get(list) == rh::value(rh::raw_object{3}));
    heap.insist_make_raw(list, 2, {});
    IS(heap.get(list) == rh::value(rh::raw_object{2}));
    std::vector<rh::init> values(70, rh::nil);
    values[69] = other;
    heap.make(list, values);
    IS(heap.fields(list) == 70 && heap.peek(list, 69) == rh::value(std::int64_t{1}));
    const std::array<rh::init, 2> pair{list, 2};
    heap.make(list, 3, pair);
    IS(heap.peek(list, 0) == rh::value(rh::object{70}));
    heap.make(list, std::vector<rh::init>());
    IS(heap.fields(list) == 0);
    // The owner is that of the first root that has one of its own.
    const rh::root shared{0, 0}, theirs{2, 0};
    heap.make(shared, {other, shared});
    IS(heap.peek(shared, 0) == rh::value(std::int64_t{1}));
    IS(heap.try_make(shared, {other, theirs}).status() == rh::status::not_yours);
    IS(heap.try_make(list, {theirs}).status() == rh::status::not_yours);
    IS(heap.try_make(list, 1, {1, 2}).status() == rh::status::no_field);
    IS(heap.try_make_raw(list, {shared}).status() == rh::status::raw_field);
    IS(heap.try_insist_make(list, {INT64_MAX}).status() == rh::status::int_range);
    IS(heap.try_insist_make(list, {UINT64_MAX}).status() == rh::status::int_range);
    IS(heap.try_insist_make_raw(list, 4095, {}).status() == rh::status::space_full);
    values.resize(4096, rh::nil);
    IS(heap.try_make(list, values).status() == rh::status::fields_range);
    IS(heap.try_make(list, 4096, {}).status() == rh::status::fields_range);
    IS(throws(rh::status::no_root, [&] { heap.make({1, 9}, {1}); }));
    IS(throws(rh::status::no_root, [&] { heap.insist_make_raw(list, {rh::root{1, 9}}); }));
    IS(heap.fields(list) == 0);
}

// Roots in a row, paths, and loads that tell no value.
void rows_of_roots() {
    rh::heap heap(small);
    const rh::root frame{1, 0}, first{1, 1}, again{1, 4}, raw{1, 7}, theirs{2, 0};
    std::array<rh::value, 3> values;
    heap.alloc(frame, 4);
    heap.alloc(first, 2);
    heap.store(first, 0, 7);
    heap.load_untold({1, 2}, first, 0);
    heap.store_roots(frame, 0, first, 3);
    heap.load_roots(again, frame, 0, values);
    IS(values[0] == rh::value(rh::object{2}) && values[1] == rh::value(std::int64_t{7}));
    IS(values[2] == rh::value(rh::nil) && heap.same(first, again));
    heap.drop_roots(again, 3);
    IS(heap.get(again) == rh::value(rh::nil));
    heap.insist_store_roots(frame, 1, first, 3);
    IS(heap.peek(frame, 1) == rh::value(rh::object{2}));
    // What was done before a refusal stays done, and is counted.
    auto loaded = heap.try_load_roots(again, frame, 2, values.data(), 3);
    IS(loaded.status() == rh::status::no_field && loaded.count() == 2);
    IS(values[0] == rh::value(std::int64_t{7}));
    IS(heap.try_load_roots(again, frame, 0, nullptr, 3).count() == 3);
    IS(heap.try_load_roots({1, 6}, frame, 0, nullptr, 3).status() == rh::status::no_root);
    IS(heap.try_load_roots({1, 6}, frame, 0, nullptr, SIZE_MAX).count() == 2);
    IS(heap.try_load_roots(again, theirs, 0, nullptr, 1).status() == rh::status::not_yours);
    heap.drop(raw);
    IS(heap.try_load_roots(again, raw, 0, nullptr, 1).status() == rh::status::not_object);
    IS(bool(heap.try_load_roots(again, raw, 0, nullptr, 0)));
    auto stored = heap.try_store_roots(frame, 2, first, 3);
    IS(!stored && stored.status() == rh::status::no_field && stored.count() == 2);
    IS(heap.try_insist_store_roots(frame, 0, theirs, 1).status() == rh::status::not_yours);
    heap.alloc_raw(raw, 3);
    IS(heap.try_store_roots(raw, 0, first, 1).status() == rh::status::raw_field);
    auto dropped = heap.try_drop_roots({1, 6}, 3);
    IS(dropped.status() == rh::status::no_root && dropped.count() == 2);
    IS(throws(rh::status::no_field, [&] { heap.load_roots(again, frame, 3, values); }));
    IS(throws(rh::status::no_field, [&] { heap.store_roots(frame, 3, first, 2); }));
    IS(throws(rh::status::no_field, [&] { heap.insist_store_roots(frame, 3, first, 2); }));
    IS(throws(rh::status::no_root, [&] { heap.drop_roots({1, 7}, 2); }));
    IS(heap.try_load_untold(again, frame, 4).status() == rh::status::no_field);
    IS(heap.try_load_untold(again, theirs, 0).status() == rh::status::not_yours);
    IS(throws(rh::status::no_root, [&] { heap.load_untold({1, 8}, frame, 0); }));
}

void values_in_rows() {
    rh::heap heap(small);
    const rh::root frame{1, 0}, first{1, 1}, theirs{2, 0};
    heap.alloc(frame, 4);
    heap.alloc(first, 2);
    heap.store_row(frame, 0, {7, rh::nil, first});
    IS(heap.peek(frame, 0) == rh::value(std::int64_t{7}));
    IS(heap.peek(frame, 1) == rh::value(rh::nil));
    IS(heap.peek(frame, 2) == rh::value(rh::object{2}));
    heap.insist_store_row(frame, 2, {-1, 8});
    heap.load_roots_untold({1, 4}, frame, 0, 4);
    IS(heap.get({1, 6}) == rh::value(std::int64_t{-1}));
    IS(heap.get({1, 7}) == rh::value(std::int64_t{8}));
    auto stored = heap.try_store_row(frame, 2, {1, 2, 3});
    IS(stored.status() == rh::status::no_field && stored.count() == 2);
    IS(heap.try_insist_store_row(frame, 0, {1, theirs}).status() == rh::status::not_yours);
    IS(heap.try_insist_store_row(frame, 3, {1, first}).count() == 1);
    IS(heap.try_load_roots_untold({1, 6}, frame, 0, 3).count() == 2);
    IS(throws(rh::status::no_field, [&] { heap.store_row(frame, 4, {rh::nil}); }));
    IS(throws(rh::status::no_field, [&] { heap.insist_store_row(frame, 4, {rh::nil}); }));
    IS(throws(rh::status::no_root, [&] { heap.load_roots_untold({1, 7}, frame, 0, 2); }));
    heap.store_row(frame, 9, {});
}

void shared_slots() {
    rh::heap heap(small);
    const rh::shared list{0}, cell{1}, found{2}, none{8};
    heap.alloc(cell, 2);
    heap.store(cell, 0, 7);
    heap.store(cell, 1, rh::nil);
    heap.copy(list, cell);
    heap.insist_alloc(cell, 2);
    heap.insist_store(cell, 0, 8);
    heap.insist_store(cell, 1, rh::nil);
    heap.insist_store(cell, 1, list);
    heap.store(cell, 1, list);
    IS(heap.load(found, cell, 1) == rh::value(rh::object{2}));
    IS(heap.peek(found, 0) == rh::value(std::int64_t{7}) && heap.same(found, list));
    heap.load_untold(found, cell, 0);
    IS(heap.get(found) == rh::value(std::int64_t{8}));
    heap.drop(found);
    heap.alloc_raw(found, 1);
    heap.insist_alloc_raw(found, 1);
    IS(heap.get(rh::root{0, 2}) == rh::value(rh::raw_object{1}));
    // With a root of another owner it is the call for that owner.
    heap.copy(rh::root{1, 0}, cell);
    heap.store(rh::root{1, 0}, 0, list);
    IS(heap.peek(cell, 0) == rh::value(rh::object{2}));
    IS(heap.try_alloc(none, 1).status() == rh::status::no_root);
    IS(heap.try_alloc_raw(none, 1).status() == rh::status::no_root);
    IS(heap.try_insist_alloc(none, 1).status() == rh::status::no_root);
    IS(heap.try_insist_alloc_raw(none, 1).status() == rh::status::no_root);
    IS(heap.try_store(found, 0, list).status() == rh::status::raw_field);
    IS(heap.try_store(found, 1, rh::nil).status() == rh::status::no_field);
    IS(heap.try_store(found, 0, UINT64_MAX).status() == rh::status::int_range);
    IS(heap.try_insist_store(found, 0, list).status() == rh::status::raw_field);
    IS(heap.try_insist_store(found, 1, rh::nil).status() == rh::status::no_field);
    IS(heap.try_insist_store(found, 0, UINT64_MAX).status() == rh::status::int_range);
    IS(heap.try_load(list, cell, 2).status() == rh::status::no_field);
    IS(heap.try_load_untold(list, none, 2).status() == rh::status::no_root);
    IS(heap.try_peek(none, 0).status() == rh::status::no_root);
    IS(heap.try_copy(list, none).status() == rh::status::no_root);
    IS(heap.try_drop(none).status() == rh::status::no_root);
}

void paths() {
    rh::heap heap(small);
    const rh::root list{1, 0}, cell{1, 1}, found{1, 2}, theirs{2, 0};
    const std::vector<std::uint32_t> rests{1, 1, 1, 1};
    for (int n = 3; n > 0; n--) {
        heap.alloc(cell, 2);
        heap.store(cell, 0, n);
        heap.store(cell, 1, list);
        heap.copy(list, cell);
    }
    IS(heap.load_path(found, list, {1, 1, 0}) == rh::value(std::int64_t{3}));
    IS(heap.get(found) == rh::value(std::int64_t{3}) && heap.same(list, cell));
    auto none = heap.try_load_path(found, list, nullptr, 0);
    IS(none && *none == rh::value(rh::nil) && none.count() == 0);
    IS(heap.get(found) == rh::value(std::int64_t{3}));
    auto past = heap.try_load_path(found, list, rests.data(), rests.size());
    IS(past.status() == rh::status::not_object && past.count() == 3);
    IS(heap.try_load_path(found, list, {1, 2}).status() == rh::status::no_field);
    IS(heap.try_load_path({1, 8}, list, {1}).status() == rh::status::no_root);
    IS(heap.try_load_path(theirs, list, {1}).status() == rh::status::not_yours);
    IS(throws(rh::status::not_object, [&] { heap.load_path(found, list, rests); }));
    IS(throws(rh::status::no_field, [&] { heap.load_path(found, list, {2}); }));
}

void tickets() {
    rh::heap heap(small);
    const rh::root a{1, 0}, b{1, 1}, theirs{2, 0};
    std::unordered_map<rh::ticket, const char *> names;
    heap.alloc(a, 1);
    heap.alloc(b, 1);
    IS(heap.try_watch(a).status() == rh::status::watches_full);
    IS(throws(rh::status::watches_full, [&] { heap.watch(a); }));
    IS(heap.try_watch_room(RHEAP_MAX_TICKETS + 1).status() == rh::status::tickets_range);
    IS(throws(rh::status::tickets_range, [&] { heap.watch_room(RHEAP_MAX_TICKETS + 1); }));
    heap.watch_room(4);
    IS(heap.try_watch({1, 8}).status() == rh::status::no_root);
    IS(heap.try_watch({3, 0}).status() == rh::status::no_root);
    IS(heap.try_watch(theirs).status() == rh::status::not_object);
    names[heap.watch(a)] = "a";
    const rh::ticket second = heap.watch(b), third = heap.watch(b);
    names[second] = "b";
    IS(names.size() == 2 && second != third && second < third && third == (rh::ticket{2}));
    heap.unwatch(third);
    IS(heap.try_unwatch(third).status() == rh::status::not_watched);
    IS(throws(rh::status::not_watched, [&] { heap.unwatch({9}); }));
    IS(heap.next_gone() == std::nullopt);
    heap.drop(a);
    heap.drop(b);
    heap.collect();
    IS(heap.try_unwatch(second).status() == rh::status::not_watched);
    // A loop that is left early leaves the others to the next one.
    std::string told;
    for (rh::ticket lost : heap.gone()) {
        told += names[lost];
        break;
    }
    for (rh::ticket lost : heap.gone()) told += names[lost];
    IS(told == "ab");
    const rh::gone more = heap.gone();
    IS(more.begin() == more.end());
    heap.alloc(a, 1);
    const rh::ticket again = heap.watch(a);
    heap.drop(a);
    heap.collect();
    auto next = heap.try_next_gone();
    IS(next && *next == again && heap.next_gone() == std::nullopt);
}

// In a cycle a row of roots meets a full log in its middle; one that insists doesn't.
void full_log() {
    rh::heap heap(rh::sizes{1000, 29, 4, 1, 256}, 10);
    const rh::root object{0, 0}, filler{0, 1}, row{0, 2};
    heap.alloc(object, 250);
    bool is_full = false;
    for (int turn = 0; turn < 2000 && !is_full; turn++) {
        auto stored = heap.try_store_roots(object, 0, row, 250);
        is_full = stored.status() == rh::status::log_full;
        IS(is_full ? stored.count() < 250 && heap.stat().cycle == 1 : bool(stored));
        if (is_full) IS(heap.try_insist_store_roots(object, 0, row, 250).count() == 250);
        (void)heap.try_insist_alloc(filler, 20).status();
    }
    IS(is_full);
}

// Each store that insists is done where the one that doesn't meets a full log.
void stores_at_full_log() {
    rh::heap heap(rh::sizes{1000, 29, 4, 1, 256}, 10);
    const rh::root object{0, 0}, filler{0, 1}, row{0, 2};
    const std::array<std::int64_t, 2> numbers{1, 2};
    heap.alloc(object, 250);
    // The plain store is refused, and then the insisting one is done.
    const auto try_both = [&](int line, auto plain, auto insisting) {
        bool is_full = false;
        for (int turn = 0; turn < 2000 && !is_full; turn++) {
            const auto stored = heap.try_store_roots(object, 0, row, 250);
            is_full = stored.status() == rh::status::log_full;
            if (!is_full) (void)heap.try_insist_alloc(filler, 20).status();
        }
        expect(is_full, "a full log", line);
        expect(plain().status() == rh::status::log_full, "the plain store", line);
        expect(insisting().status() == rh::status::done, "the insisting store", line);
    };
    try_both(__LINE__, [&] { return heap.try_store(object, 0, rh::nil); },
             [&] { return heap.try_insist_store(object, 0, rh::nil); });
    try_both(__LINE__, [&] { return heap.try_store(object, 0, 1); },
             [&] { return heap.try_insist_store(object, 0, 1); });
    try_both(__LINE__, [&] { return heap.try_store(object, 0, row); },
             [&] { return heap.try_insist_store(object, 0, row); });
    try_both(__LINE__, [&] { return heap.try_store_ints(object, 0, numbers.data(), 2); },
             [&] { return heap.try_insist_store_ints(object, 0, numbers.data(), 2); });
    try_both(__LINE__, [&] { return heap.try_store_text(object, 0, "a managed heap"); },
             [&] { return heap.try_insist_store_text(object, 0, "a managed heap"); });
}

// Each allocation that insists collects where the one that doesn't has no room.
void full_of_garbage() {
    rh::heap heap(small);
    const rh::root big{1, 0}, dst{1, 1};
    for (const bool is_raw : {false, true}) {
        heap.insist_alloc(big, 3000);
        heap.drop(big);
        const auto flips = heap.stat().flips;
        const auto plain = is_raw ? heap.try_alloc_raw(dst, 3000) : heap.try_alloc(dst, 3000);
        IS(plain.status() == rh::status::space_full && heap.stat().flips == flips);
        const auto insisting =
            is_raw ? heap.try_insist_alloc_raw(dst, 3000) : heap.try_insist_alloc(dst, 3000);
        IS(insisting.status() == rh::status::done && heap.stat().flips > flips);
        heap.drop(dst);
    }
}

// A heap that is moved, closed, and asked for what it hasn't.
void life() {
    rh::heap first(small, 100), second;
    const rh::root root{1, 0};
    IS(first && !second);
    first.alloc(root, 3);
    second = std::move(first);
    IS(!first.is_open() && second.fields(root) == 3);
    rh::heap third(std::move(second));
    IS(third.fields(root) == 3);
    IS(second.try_alloc(root, 1).status() == rh::status::not_open);
    IS(second.try_collect().status() == rh::status::not_open);
    IS(second.try_close().status() == rh::status::not_open);
    IS(second.try_next_gone().status() == rh::status::not_open);
    IS(second.try_watch_room(1).status() == rh::status::not_open);
    IS(second.try_drop_roots(root, 1).count() == 0);
    IS(throws(rh::status::not_open, [&] { (void)second.gone().begin(); }));
    IS(throws(rh::status::not_open, [&] { (void)second.stat(); }));
    IS(bool(second.try_open(small)));
    swap(second, third);
    IS(second.fields(root) == 3);
    third = std::move(second);
    IS(third.fields(root) == 3);
    IS(bool(third.try_close()));
    IS(throws(rh::status::not_open, [&] { third.collect(); }));
}

void scoped() {
    rh::heap heap(small);
    for (std::uint32_t slot = 1; slot < 7; slot++) heap.alloc({1, slot}, 1);
    heap.alloc({2, 2}, 1);
    rh::slots slots(heap, 1, 2, 4);
    IS(slots.left() == 4);
    for (std::uint32_t slot = 1; slot < 7; slot++) {
        IS((heap.get({1, slot}) == rh::value(rh::nil)) == (slot >= 2 && slot < 6));
    }
    IS(heap.fields({2, 2}) == 1);
    heap.drop({1, 1});
    heap.drop({1, 6});
    heap.drop({2, 2});
    {
        rh::scoped_root a(slots), b(slots), empty;
        const rh::root name = a;
        IS(name == (rh::root{1, 2}) && rh::root(b) != name);
        heap.alloc(a, 1);
        heap.alloc(b, 2);
        swap(a, b);
        IS(heap.fields(a) == 2 && heap.fields(b) == 1);
        rh::scoped_root c(std::move(a));
        IS(!a && c && heap.fields(c) == 2);
        IS(heap.try_fields(a).status() == rh::status::no_root);
        a = rh::scoped_root(slots);
        IS(slots.left() == 1);
        IS(heap.get(a) == rh::value(rh::nil));
        a = std::move(c);
        IS(heap.fields(a) == 2 && slots.left() == 2);
        rh::scoped_root d(slots), e(slots), f(slots, std::nothrow);
        IS(d && e && !f && !empty);
        IS(throws(rh::status::no_root, [&] { rh::scoped_root g(slots); }));
        IS(heap.get(name) != rh::value(rh::nil));
    }
    IS(slots.left() == 4);
    for (std::uint32_t slot = 2; slot < 6; slot++) {
        IS(heap.get({1, slot}) == rh::value(rh::nil));
    }
    heap.collect();
    IS(heap.stat().used == 0);
}

// Of more slots than an owner has, the first ones are taken; and slots may be there before a heap.
void many_slots() {
    rh::heap heap;
    rh::slots all(heap, 1, 0, 1000);
    IS(all.left() == RHEAP_MAX_SLOTS);
    heap.try_open(rh::sizes{4096, 40}).value();
    rh::scoped_root first(all), second(all);
    IS(rh::root(first) == (rh::root{1, 0}) && rh::root(second) == (rh::root{1, 1}));
    heap.alloc(second, 1);
    rh::slots none(heap, 1, 1, 0);
    IS(none.left() == 0 && heap.fields(second) == 1);
}

// A list that outgrows the words with which its heap began, and what opens no such heap.
void growing() {
    const rh::growth growth{50000, 4, 32, 2, 8, 16, 200};
    rh::heap heap = rh::heap::growing(growth);
    rh::slots slots(heap, 1, 0, 4);
    rh::scoped_root list(slots), cell(slots);
    IS(heap.is_open() && heap.shortage() == rh::shortage::none);
    for (int n = 0; n < 5000; n++) {
        heap.alloc(cell, 2);
        heap.store(cell, 0, n);
        heap.store(cell, 1, list);
        swap(list, cell);
    }
    IS(heap.stat().used >= 20000 && heap.shortage() == rh::shortage::none);
    std::int64_t due = 5000;
    for (rh::value at = heap.get(list); std::holds_alternative<rh::object>(at);) {
        IS(std::get<std::int64_t>(heap.peek(list, 0)) == --due);
        at = heap.load(list, list, 1);
    }
    IS(due == 0);
    IS(heap.try_open_growing(growth).status() == rh::status::is_open);
    IS(heap.try_open(small).status() == rh::status::is_open);
    rh::heap other;
    IS(other.try_shortage().status() == rh::status::not_open);
    rh::growth wrong_growth = growth;
    wrong_growth.factor = 99;
    IS(other.try_open_growing(wrong_growth).status() == rh::status::bad_growth);
    IS(throws(rh::status::bad_growth, [&] { (void)rh::heap::growing(wrong_growth); }));
    // Where the most is less, it begins with that.
    IS(bool(other.try_open_growing({4096, 4})) && other.stat().free == 4096);
}

// What a heap looks like, its cycles, and memory that it gives back.
void views() {
    rh::heap heap(rh::sizes{400, 4});
    rh::slots slots(heap, 1, 0, 2);
    rh::scoped_root pair(slots);
    heap.make(pair, {7, rh::nil});
    IS(heap.dump() == "rheap 2\nroots 1\n1.0 @0\nobjects 1\n@0 2 7 nil\nend\n");
    const std::string before = heap.draw();
    IS(before.find("<svg") != std::string::npos && before.substr(before.size() - 7) == "</svg>\n");
    rh::cycle_reader reader;
    IS(!heap.cycle(reader));
    heap.store(pair, 0, 8);
    IS(heap.draw() != before);
    IS(!heap.cycle(reader));
    heap.collect();
    const auto cycle = heap.cycle(reader);
    IS(cycle && cycle->number == 1 && cycle->live == 4 && cycle->objects == 1);
    IS(!heap.cycle(reader));
    heap.release();
    IS(heap.dump() == "rheap 2\nroots 1\n1.0 @0\nobjects 1\n@0 2 8 nil\nend\n");
    while (heap.stat().cycle == 0) heap.insist_alloc(rh::root{1, 1}, 2);
    IS(heap.try_release().status() == rh::status::cycle_on);
    // A dump that is longer than the room that is tried first.
    for (int n = 0; n < 60; n++) heap.insist_make(pair, {n, pair});
    IS(heap.dump().size() > 600);
    rh::heap other;
    IS(other.try_dump().status() == rh::status::not_open);
    IS(other.try_draw().status() == rh::status::not_open);
    IS(other.try_cycle(reader).status() == rh::status::not_open);
    IS(other.try_release().status() == rh::status::not_open);
}

// A heap of fixed sizes that is given other words.
void resizing() {
    rh::heap heap(rh::sizes{400, 4});
    const rh::root root{1, 0};
    heap.alloc(root, 300);
    IS(heap.try_resize(301, 4).status() == rh::status::in_use);
    IS(heap.try_resize(400, 400).status() == rh::status::no_pace);
    IS(heap.try_resize_for(400, 0, 150).status() == rh::status::no_pace);
    IS(heap.try_resize_for(RHEAP_MAX_WORDS + 1, 300, 4).status() == rh::status::bad_sizes);
    IS(heap.room(0).free == 98);
    heap.resize(2000, 302);
    IS(heap.room(0).free == 1698 && heap.fields(root) == 300);
    heap.resize_for(302, 0, 4);
    IS(heap.room(0).free == 0);
    rh::heap grows = rh::heap::growing({1000, 4});
    IS(grows.try_resize(2000, 4).status() == rh::status::grows);
    IS(grows.try_resize_for(2000, 100, 4).status() == rh::status::grows);
    rh::heap other;
    IS(other.try_resize(2000, 4).status() == rh::status::not_open);
}

// A list of a thousand cells while many more are let go, and an array of rheap_array.h beside it.
void collecting() {
    rh::heap heap(rh::sizes{8192, 40});
    rh::slots slots(heap, 1, 0, 10);
    ::rheap_scope scope = {heap.handle(), 1, 10};
    rh::scoped_root list(slots), cell(slots), row(slots);
    const rh::root array = row;
    IS(::rheap_array_make(&scope, array.id(), 0, 30) == RHEAP_DONE);
    for (int n = 0; n < 20000; n++) {
        if (n % 1000 == 0) heap.drop(list);
        heap.insist_alloc(cell, 2);
        heap.insist_store(cell, 0, n);
        heap.insist_store(cell, 1, list);
        swap(list, cell);
        if (n % 20 == 0) IS(::rheap_array_push_int(&scope, array.id(), n) == RHEAP_DONE);
    }
    std::int64_t due = 20000;
    for (rh::value at = heap.get(list); std::holds_alternative<rh::object>(at);) {
        IS(std::get<std::int64_t>(heap.peek(list, 0)) == --due);
        at = heap.load(list, list, 1);
    }
    IS(due == 19000);
    IS(heap.stat().flips > 5);
}

} // namespace

int main() {
    values();
    rows();
    refusals();
    objects_with_values();
    rows_of_roots();
    values_in_rows();
    shared_slots();
    paths();
    tickets();
    full_log();
    stores_at_full_log();
    full_of_garbage();
    life();
    scoped();
    many_slots();
    growing();
    views();
    resizing();
    collecting();
    return wrong;
}
