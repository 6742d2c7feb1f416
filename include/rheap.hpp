/*
 * rheap.hpp: the calls of rheap.h for C++17, in its idioms. It is a header alone: there is nothing
 * to link beside the library.
 *
 *     rh::heap heap(rh::sizes{4096, 4});             // words, biggest; ratio 32, 2 owners
 *     rh::slots slots(heap, 1, 0, 8);                // eight slots of owner 1, from 0 on
 *     rh::scoped_root list(slots), cell(slots);      // two of them, given back at the end
 *     heap.make(cell, {7, list});                    // an object of two fields
 *     heap.store(cell, 0, 8);
 *     swap(list, cell);                              // no call of the heap
 *     std::int64_t eight = std::get<std::int64_t>(heap.peek(list, 0));
 *
 * Each call is there twice. `heap.alloc(..)` throws rh::error if the heap refuses it.
 * `heap.try_alloc(..)` is noexcept and returns an rh::result, which has the value or the status;
 * the compiler warns if you drop it. A program without exceptions uses the second: built so, the
 * first calls std::abort when it is refused.
 *
 * What a call does, what it costs and how it is refused is in rheap.h, under the same name. Where
 * that takes an owner, this header takes it from the roots: it is the owner of the first one that
 * isn't owner 0's. Roots of two owners, neither of them owner 0, are refused as NOT_YOURS.
 *
 * Whole traces have no call here: rheap_run and rheap_run_paced need no handle. For rheap_field
 * there is heap::peek.
 *
 * No call is const, not even one that only reads: two threads may not make calls on one heap at
 * once.
 *
 * This header is tested, and not proved. What it calls is proved.
 */
#ifndef RHEAP_HPP
#define RHEAP_HPP

#ifdef RHEAP_ON_REFUSAL_H
#error "include rheap_on_refusal.h after rheap.hpp"
#endif

#include "rheap.h"

#include <array>
#include <cstddef>
#include <cstdint>
#include <cstdlib>
#include <functional>
#include <initializer_list>
#include <iterator>
#include <new>
#include <optional>
#include <string>
#include <string_view>
#include <system_error>
#include <type_traits>
#include <utility>
#include <variant>

#if __cplusplus < 201703L
#error "rheap.hpp needs C++17; rheap.h is for C++11 too"
#endif

namespace rh {

// --- Statuses ---

// Why a call was refused; `done` where it wasn't. They are those of rheap.h.
enum class status : std::uint8_t {
    done = RHEAP_DONE,
    no_root = RHEAP_NO_ROOT,
    not_yours = RHEAP_NOT_YOURS,
    not_object = RHEAP_NOT_OBJECT,
    no_field = RHEAP_NO_FIELD,
    raw_field = RHEAP_RAW_FIELD,
    int_range = RHEAP_INT_RANGE,
    fields_range = RHEAP_FIELDS_RANGE,
    space_full = RHEAP_SPACE_FULL,
    log_full = RHEAP_LOG_FULL,
    numbers_spent = RHEAP_NUMBERS_SPENT,
    epochs_spent = RHEAP_EPOCHS_SPENT,
    not_open = RHEAP_NOT_OPEN,
    is_open = RHEAP_IS_OPEN,
    no_pace = RHEAP_NO_PACE,
    bad_sizes = RHEAP_BAD_SIZES,
    no_memory = RHEAP_NO_MEMORY,
    watches_full = RHEAP_WATCHES_FULL,
    not_watched = RHEAP_NOT_WATCHED,
    tickets_range = RHEAP_TICKETS_RANGE,
    bad_kind = RHEAP_BAD_KIND,
    bad_growth = RHEAP_BAD_GROWTH,
    too_long = RHEAP_TOO_LONG,
    cycle_on = RHEAP_CYCLE_ON,
    in_use = RHEAP_IN_USE,
    grows = RHEAP_GROWS
};

// The name of a status, as "SPACE_FULL".
inline const char *name(status of) noexcept {
    return ::rheap_name(static_cast<std::uint8_t>(of));
}

namespace detail {

class category final : public std::error_category {
public:
    const char *name() const noexcept override { return "rheap"; }
    std::string message(int of) const override {
        return ::rheap_name(static_cast<std::uint8_t>(of));
    }
    std::error_condition default_error_condition(int of) const noexcept override {
        return of == RHEAP_NO_MEMORY ? std::make_error_condition(std::errc::not_enough_memory)
                                     : std::error_condition(of, *this);
    }
};

} // namespace detail

// The category of the statuses as error codes.
inline const std::error_category &category() noexcept {
    static const detail::category only;
    return only;
}

inline std::error_code make_error_code(status of) noexcept {
    return {static_cast<int>(of), category()};
}

// What a refused call throws. Its code is the status: `e.code() == rh::status::space_full`.
class error : public std::system_error {
public:
    explicit error(rh::status of) : std::system_error(make_error_code(of), "rheap") {}
    rh::status status() const noexcept { return static_cast<rh::status>(code().value()); }
};

namespace detail {

[[noreturn]] inline void refuse([[maybe_unused]] status why) {
#if defined(__cpp_exceptions)
    throw error(why);
#else
    std::abort();
#endif
}

} // namespace detail

// What a call returns that doesn't throw: a value, or the status by which it was refused.
template <class T>
class [[nodiscard]] result {
public:
    result(T of) noexcept : value_(std::move(of)), status_(rh::status::done) {}
    result(rh::status why) noexcept : value_(), status_(why) {}

    explicit operator bool() const noexcept { return status_ == rh::status::done; }
    rh::status status() const noexcept { return status_; }
    // The value. Throws rh::error where there is none.
    T &value() & {
        need();
        return value_;
    }
    const T &value() const & {
        need();
        return value_;
    }
    T value() && {
        need();
        return std::move(value_);
    }
    T value_or(T other) const & { return *this ? value_ : std::move(other); }
    T value_or(T other) && { return *this ? std::move(value_) : std::move(other); }
    // The value, where there is one.
    T &operator*() & noexcept { return value_; }
    const T &operator*() const & noexcept { return value_; }
    T operator*() && noexcept { return std::move(value_); }
    T *operator->() & noexcept { return &value_; }
    const T *operator->() const & noexcept { return &value_; }

private:
    void need() const {
        if (!*this) detail::refuse(status_);
    }
    T value_;
    rh::status status_;
};

// The same of a call that has no value.
template <>
class [[nodiscard]] result<void> {
public:
    result(rh::status of) noexcept : status_(of) {}

    explicit operator bool() const noexcept { return status_ == rh::status::done; }
    rh::status status() const noexcept { return status_; }
    // Throws rh::error where the call was refused.
    void value() const {
        if (!*this) detail::refuse(status_);
    }

private:
    rh::status status_;
};

// The same of a call on roots in a row, or on a path: also how many of its commands were done.
// These stay done where a later one was refused.
template <class T>
class [[nodiscard]] counted : public result<T> {
public:
    counted(result<T> of, std::size_t count) noexcept : result<T>(std::move(of)), count_(count) {}
    std::size_t count() const noexcept { return count_; }

private:
    std::size_t count_;
};

// --- Values ---

// No object and no number.
struct nil_t {
    friend constexpr bool operator==(nil_t, nil_t) noexcept { return true; }
    friend constexpr bool operator!=(nil_t, nil_t) noexcept { return false; }
};
inline constexpr nil_t nil{};

// A reference to an object, and one to a raw object; `fields` is how many that has. Two of these
// are equal where the objects have as many fields: heap::same says whether they are one.
struct object {
    std::uint32_t fields;
    friend constexpr bool operator==(object a, object b) noexcept { return a.fields == b.fields; }
    friend constexpr bool operator!=(object a, object b) noexcept { return !(a == b); }
};
struct raw_object {
    std::uint32_t fields;
    friend constexpr bool operator==(raw_object a, raw_object b) noexcept {
        return a.fields == b.fields;
    }
    friend constexpr bool operator!=(raw_object a, raw_object b) noexcept { return !(a == b); }
};

// What a root or a field holds: for std::visit, std::get_if and std::holds_alternative.
using value = std::variant<nil_t, std::int64_t, object, raw_object>;

namespace detail {

inline value told(const ::rheap_value &of) noexcept {
    switch (of.kind) {
    case RHEAP_NUMBER: return of.number;
    case RHEAP_OBJECT: return object{of.fields};
    case RHEAP_RAW: return raw_object{of.fields};
    default: return nil;
    }
}

} // namespace detail

// --- Roots ---

// A root: a slot of an owner, both counted from 0. It is a name, and owns nothing.
struct root {
    std::uint32_t owner;
    std::uint32_t slot;
    ::rheap_root_id id() const noexcept { return ::rheap_slot(owner, slot); }
    friend constexpr bool operator==(root a, root b) noexcept {
        return a.owner == b.owner && a.slot == b.slot;
    }
    friend constexpr bool operator!=(root a, root b) noexcept { return !(a == b); }
};

// A slot of owner 0, by its number: a root that all owners share. On a heap of fixed sizes, calls on
// such slots alone take fewer instructions.
struct shared {
    std::uint32_t slot;
    operator root() const noexcept { return {0, slot}; }
};

// --- Values for fields ---

namespace detail {

// A number that is too large for 64 bits becomes one that the heap refuses: INT_RANGE.
template <class N>
std::int64_t whole(N number) noexcept {
    static_assert(sizeof(N) <= sizeof(std::int64_t), "a number of at most 64 bits");
    if constexpr (std::is_unsigned_v<N> && sizeof(N) == sizeof(std::int64_t)) {
        return number > static_cast<std::uint64_t>(INT64_MAX) ? INT64_MAX
                                                              : static_cast<std::int64_t>(number);
    } else {
        return static_cast<std::int64_t>(number);
    }
}

} // namespace detail

// What a field takes: nil, a whole number of any integral type, or what a root holds.
class init {
public:
    init(nil_t) noexcept : of_(::rheap_of_nil()) {}
    template <class N, std::enable_if_t<std::is_integral_v<N>, int> = 0>
    init(N number) noexcept : of_(::rheap_of_int(detail::whole(number))) {}
    template <class R, std::enable_if_t<std::is_convertible_v<const R &, root>, int> = 0>
    init(const R &src) noexcept : of_(::rheap_of_root(static_cast<root>(src).id())) {}

    // Its owner, where it is a root's value, and else 0.
    std::uint32_t owner() const noexcept { return of_.root.owner; }

private:
    ::rheap_init of_;
};

// The values of a new object, or of fields in a row: a list in braces, or anything with data() and
// size(), as a std::vector of rh::init. It names them, and is for the call that takes it.
class values {
public:
    values(std::initializer_list<init> of) noexcept : first_(std::data(of)), size_(of.size()) {}
    template <class Row, std::enable_if_t<std::is_convertible_v<
                             decltype(std::data(std::declval<const Row &>())), const init *>, int> = 0>
    values(const Row &of) noexcept : first_(std::data(of)), size_(std::size(of)) {}

    std::size_t size() const noexcept { return size_; }
    // The fields of an object that has no others.
    std::uint32_t fields() const noexcept {
        return static_cast<std::uint32_t>(size_ < RHEAP_MAX_FIELDS ? size_ : RHEAP_MAX_FIELDS);
    }
    const init *begin() const noexcept { return first_; }
    const init *end() const noexcept { return first_ + size_; }
    // As C has them.
    const ::rheap_init *given() const noexcept {
        static_assert(std::is_standard_layout_v<init> && sizeof(init) == sizeof(::rheap_init));
        static constexpr ::rheap_init none{};
        return size_ == 0 ? &none : reinterpret_cast<const ::rheap_init *>(first_);
    }

private:
    const init *first_;
    std::size_t size_;
};

// A ticket that watches an object. It is a number below the tickets that the heap has, so what a
// program keeps beside its objects can lie in a vector. Once it was told or freed, the same number
// is given to another object.
struct ticket {
    std::uint64_t number;
    friend constexpr bool operator==(ticket a, ticket b) noexcept { return a.number == b.number; }
    friend constexpr bool operator!=(ticket a, ticket b) noexcept { return !(a == b); }
    friend constexpr bool operator<(ticket a, ticket b) noexcept { return a.number < b.number; }
};

// --- The heap ---

class gone;

// The sizes of a heap, as rheap_open_sized has them. Each flip looks at all slots, so ask for no more
// than you use: there may be RHEAP_MAX_SLOTS of each owner.
struct sizes {
    std::uint32_t words;
    std::uint32_t biggest;
    std::uint32_t ratio = 32;
    std::uint32_t owners = 2;
    std::uint32_t slots = 32;
};

// How a heap grows, as rheap_open_growth has it. It begins with at_least words, or with at_most where
// that is less.
struct growth {
    std::uint32_t at_most;
    std::uint32_t biggest;
    std::uint32_t ratio = 32;
    std::uint32_t owners = 2;
    std::uint32_t slots = 32;
    std::uint32_t at_least = 40000;
    std::uint32_t factor = 200;
};

// Whether a heap that grows has too few words, as rheap_short tells it.
enum class shortage : std::uint8_t { none = RHEAP_AMPLE, at_most = RHEAP_AT_MOST,
                                     refused = RHEAP_REFUSED };

// What is kept of the cycles of one heap, for heap::cycle.
class cycle_reader {
    friend class heap;
    ::rheap_cycle_reader raw_ = RHEAP_CYCLE_READER_INIT;
};

// A heap that collects by itself. It is closed, and its memory freed, where it ends. It may be
// moved; what it was moved from holds none, and its calls are NOT_OPEN. What names a heap, as
// rh::slots does, goes on naming the place that it had: so move it before you make these.
class heap {
public:
    // Holds no heap.
    heap() noexcept = default;
    // Opens one. Throws NO_PACE, BAD_SIZES, NO_MEMORY.
    explicit heap(const sizes &of) { try_open(of).value(); }
    // Opens one of which no more than so many words live at once.
    heap(const sizes &of, std::uint32_t live) { try_open(of, live).value(); }
    // Opens one that grows. Throws BAD_GROWTH, NO_PACE, BAD_SIZES, NO_MEMORY.
    static heap growing(const growth &of) {
        heap made;
        made.try_open_growing(of).value();
        return made;
    }
    heap(heap &&other) noexcept : raw_(std::exchange(other.raw_, ::rheap RHEAP_INIT)) {}
    heap &operator=(heap &&other) noexcept {
        if (this != &other) {
            (void)::rheap_close(&raw_);
            raw_ = std::exchange(other.raw_, ::rheap RHEAP_INIT);
        }
        return *this;
    }
    heap(const heap &) = delete;
    heap &operator=(const heap &) = delete;
    ~heap() { (void)::rheap_close(&raw_); }
    friend void swap(heap &a, heap &b) noexcept { std::swap(a.raw_, b.raw_); }

    result<void> try_open(const sizes &of) noexcept {
        return of_call(
            ::rheap_open_sized(&raw_, of.words, of.biggest, of.ratio, of.owners, of.slots));
    }
    result<void> try_open(const sizes &of, std::uint32_t live) noexcept {
        return of_call(
            ::rheap_open(&raw_, of.words, live, of.biggest, of.ratio, of.owners, of.slots));
    }
    result<void> try_open_growing(const growth &of) noexcept {
        const ::rheap_growth growth = {of.at_least < of.at_most ? of.at_least : of.at_most,
                                       of.at_most, of.factor, of.biggest, of.ratio, of.owners,
                                       of.slots};
        return of_call(::rheap_open_growth(&raw_, &growth));
    }
    result<void> try_close() noexcept { return of_call(::rheap_close(&raw_)); }
    bool is_open() const noexcept { return raw_.at != nullptr || raw_.grows_at != nullptr; }
    explicit operator bool() const noexcept { return is_open(); }
    // The handle, for calls of rheap.h. Close it by this object alone.
    ::rheap *handle() noexcept { return &raw_; }

    // Objects. The insist_ calls make room first.
    result<void> try_alloc(root dst, std::uint32_t fields) noexcept {
        return of_call(::rheap_alloc(&raw_, dst.owner, dst.id(), fields));
    }
    result<void> try_alloc_raw(root dst, std::uint32_t fields) noexcept {
        return of_call(::rheap_alloc_raw(&raw_, dst.owner, dst.id(), fields));
    }
    result<void> try_insist_alloc(root dst, std::uint32_t fields) noexcept {
        return of_call(::rheap_insist_alloc(&raw_, dst.owner, dst.id(), fields));
    }
    result<void> try_insist_alloc_raw(root dst, std::uint32_t fields) noexcept {
        return of_call(::rheap_insist_alloc_raw(&raw_, dst.owner, dst.id(), fields));
    }
    void alloc(root dst, std::uint32_t fields) { try_alloc(dst, fields).value(); }
    void alloc_raw(root dst, std::uint32_t fields) { try_alloc_raw(dst, fields).value(); }
    void insist_alloc(root dst, std::uint32_t fields) { try_insist_alloc(dst, fields).value(); }
    void insist_alloc_raw(root dst, std::uint32_t fields) {
        try_insist_alloc_raw(dst, fields).value();
    }

    // The same of slots of owner 0 by number.
    result<void> try_alloc(shared dst, std::uint32_t fields) noexcept {
        return of_call(::rheap_shared_alloc(&raw_, dst.slot, fields));
    }
    result<void> try_alloc_raw(shared dst, std::uint32_t fields) noexcept {
        return of_call(::rheap_shared_alloc_raw(&raw_, dst.slot, fields));
    }
    result<void> try_insist_alloc(shared dst, std::uint32_t fields) noexcept {
        return of_call(::rheap_shared_insist_alloc(&raw_, dst.slot, fields));
    }
    result<void> try_insist_alloc_raw(shared dst, std::uint32_t fields) noexcept {
        return of_call(::rheap_shared_insist_alloc_raw(&raw_, dst.slot, fields));
    }
    void alloc(shared dst, std::uint32_t fields) { try_alloc(dst, fields).value(); }
    void alloc_raw(shared dst, std::uint32_t fields) { try_alloc_raw(dst, fields).value(); }
    void insist_alloc(shared dst, std::uint32_t fields) { try_insist_alloc(dst, fields).value(); }
    void insist_alloc_raw(shared dst, std::uint32_t fields) {
        try_insist_alloc_raw(dst, fields).value();
    }

    // Objects with their values: `heap.make(list, {7, list})` makes one of two fields. What a root
    // holds is read before `dst` names the object. With `fields`, those past the values are nil.
    result<void> try_make(root dst, std::uint32_t fields, values of) noexcept {
        return of_call(::rheap_make(&raw_, owner_of(dst, of), dst.id(), fields, of.given(), of.size()));
    }
    result<void> try_make_raw(root dst, std::uint32_t fields, values of) noexcept {
        return of_call(
            ::rheap_make_raw(&raw_, owner_of(dst, of), dst.id(), fields, of.given(), of.size()));
    }
    result<void> try_insist_make(root dst, std::uint32_t fields, values of) noexcept {
        return of_call(
            ::rheap_insist_make(&raw_, owner_of(dst, of), dst.id(), fields, of.given(), of.size()));
    }
    result<void> try_insist_make_raw(root dst, std::uint32_t fields, values of) noexcept {
        return of_call(
            ::rheap_insist_make_raw(&raw_, owner_of(dst, of), dst.id(), fields, of.given(), of.size()));
    }
    result<void> try_make(root dst, values of) noexcept { return try_make(dst, of.fields(), of); }
    result<void> try_make_raw(root dst, values of) noexcept {
        return try_make_raw(dst, of.fields(), of);
    }
    result<void> try_insist_make(root dst, values of) noexcept {
        return try_insist_make(dst, of.fields(), of);
    }
    result<void> try_insist_make_raw(root dst, values of) noexcept {
        return try_insist_make_raw(dst, of.fields(), of);
    }
    void make(root dst, values of) { try_make(dst, of).value(); }
    void make(root dst, std::uint32_t fields, values of) { try_make(dst, fields, of).value(); }
    void make_raw(root dst, values of) { try_make_raw(dst, of).value(); }
    void make_raw(root dst, std::uint32_t fields, values of) {
        try_make_raw(dst, fields, of).value();
    }
    void insist_make(root dst, values of) { try_insist_make(dst, of).value(); }
    void insist_make(root dst, std::uint32_t fields, values of) {
        try_insist_make(dst, fields, of).value();
    }
    void insist_make_raw(root dst, values of) { try_insist_make_raw(dst, of).value(); }
    void insist_make_raw(root dst, std::uint32_t fields, values of) {
        try_insist_make_raw(dst, fields, of).value();
    }

    // Stores: nil, a whole number of any integral type, or what a root holds. A number that is no
    // whole one doesn't compile.
    result<void> try_store(root at, std::uint32_t field, nil_t) noexcept {
        return of_call(::rheap_store_nil(&raw_, at.owner, at.id(), field));
    }
    result<void> try_store(root at, std::uint32_t field, root src) noexcept {
        return of_call(::rheap_store_root(&raw_, owner_of(at, src), at.id(), field, src.id()));
    }
    template <class N, std::enable_if_t<std::is_integral_v<N>, int> = 0>
    result<void> try_store(root at, std::uint32_t field, N number) noexcept {
        return of_call(::rheap_store_int(&raw_, at.owner, at.id(), field, detail::whole(number)));
    }
    result<void> try_insist_store(root at, std::uint32_t field, nil_t) noexcept {
        return of_call(::rheap_insist_store_nil(&raw_, at.owner, at.id(), field));
    }
    result<void> try_insist_store(root at, std::uint32_t field, root src) noexcept {
        return of_call(
            ::rheap_insist_store_root(&raw_, owner_of(at, src), at.id(), field, src.id()));
    }
    template <class N, std::enable_if_t<std::is_integral_v<N>, int> = 0>
    result<void> try_insist_store(root at, std::uint32_t field, N number) noexcept {
        return of_call(::rheap_insist_store_int(&raw_, at.owner, at.id(), field, detail::whole(number)));
    }
    template <class What>
    void store(root at, std::uint32_t field, const What &what) {
        try_store(at, field, what).value();
    }
    template <class What>
    void insist_store(root at, std::uint32_t field, const What &what) {
        try_insist_store(at, field, what).value();
    }

    // The same of slots of owner 0 by number.
    result<void> try_store(shared at, std::uint32_t field, nil_t) noexcept {
        return of_call(::rheap_shared_store_nil(&raw_, at.slot, field));
    }
    result<void> try_store(shared at, std::uint32_t field, shared src) noexcept {
        return of_call(::rheap_shared_store_root(&raw_, at.slot, field, src.slot));
    }
    template <class N, std::enable_if_t<std::is_integral_v<N>, int> = 0>
    result<void> try_store(shared at, std::uint32_t field, N number) noexcept {
        return of_call(::rheap_shared_store_int(&raw_, at.slot, field, detail::whole(number)));
    }
    result<void> try_insist_store(shared at, std::uint32_t field, nil_t) noexcept {
        return of_call(::rheap_shared_insist_store_nil(&raw_, at.slot, field));
    }
    result<void> try_insist_store(shared at, std::uint32_t field, shared src) noexcept {
        return of_call(::rheap_shared_insist_store_root(&raw_, at.slot, field, src.slot));
    }
    template <class N, std::enable_if_t<std::is_integral_v<N>, int> = 0>
    result<void> try_insist_store(shared at, std::uint32_t field, N number) noexcept {
        return of_call(
            ::rheap_shared_insist_store_int(&raw_, at.slot, field, detail::whole(number)));
    }
    template <class What>
    void store(shared at, std::uint32_t field, const What &what) {
        try_store(at, field, what).value();
    }
    template <class What>
    void insist_store(shared at, std::uint32_t field, const What &what) {
        try_insist_store(at, field, what).value();
    }

    // The root `dst` takes what a field holds, which is returned too.
    result<value> try_load(root dst, root src, std::uint32_t field) noexcept {
        ::rheap_value of;
        return of_call(
            ::rheap_load(&raw_, owner_of(dst, src), dst.id(), src.id(), field, &of), of);
    }
    value load(root dst, root src, std::uint32_t field) {
        return try_load(dst, src, field).value();
    }
    // The same where the value isn't looked at, in less work.
    result<void> try_load_untold(root dst, root src, std::uint32_t field) noexcept {
        return of_call(
            ::rheap_load_untold(&raw_, owner_of(dst, src), dst.id(), src.id(), field));
    }
    void load_untold(root dst, root src, std::uint32_t field) {
        try_load_untold(dst, src, field).value();
    }
    // What a field holds, without a root for it.
    result<value> try_peek(root src, std::uint32_t field) noexcept {
        ::rheap_value of;
        return of_call(::rheap_peek(&raw_, src.owner, src.id(), field, &of), of);
    }
    value peek(root src, std::uint32_t field) { return try_peek(src, field).value(); }
    // The same of slots of owner 0 by number.
    result<value> try_load(shared dst, shared src, std::uint32_t field) noexcept {
        ::rheap_value of;
        return of_call(::rheap_shared_load(&raw_, dst.slot, src.slot, field, &of), of);
    }
    value load(shared dst, shared src, std::uint32_t field) {
        return try_load(dst, src, field).value();
    }
    result<void> try_load_untold(shared dst, shared src, std::uint32_t field) noexcept {
        return of_call(::rheap_shared_load_untold(&raw_, dst.slot, src.slot, field));
    }
    void load_untold(shared dst, shared src, std::uint32_t field) {
        try_load_untold(dst, src, field).value();
    }
    result<value> try_peek(shared src, std::uint32_t field) noexcept {
        ::rheap_value of;
        return of_call(::rheap_shared_peek(&raw_, src.slot, field, &of), of);
    }
    value peek(shared src, std::uint32_t field) { return try_peek(src, field).value(); }
    // What a root holds, and how many fields its object has.
    result<value> try_get(root at) noexcept {
        ::rheap_value of;
        return of_call(::rheap_root(&raw_, at.id(), &of), of);
    }
    value get(root at) { return try_get(at).value(); }
    result<std::uint32_t> try_fields(root at) noexcept {
        std::uint32_t count;
        return of_call(::rheap_fields(&raw_, at.id(), &count), count);
    }
    std::uint32_t fields(root at) { return try_fields(at).value(); }

    // Roots.
    result<void> try_copy(root dst, root src) noexcept {
        return of_call(::rheap_copy(&raw_, owner_of(dst, src), dst.id(), src.id()));
    }
    void copy(root dst, root src) { try_copy(dst, src).value(); }
    result<void> try_drop(root at) noexcept {
        return of_call(::rheap_drop(&raw_, at.owner, at.id()));
    }
    void drop(root at) { try_drop(at).value(); }
    // The same of slots of owner 0 by number.
    result<void> try_copy(shared dst, shared src) noexcept {
        return of_call(::rheap_shared_copy(&raw_, dst.slot, src.slot));
    }
    void copy(shared dst, shared src) { try_copy(dst, src).value(); }
    result<void> try_drop(shared at) noexcept {
        return of_call(::rheap_shared_drop(&raw_, at.slot));
    }
    void drop(shared at) { try_drop(at).value(); }
    result<bool> try_same(root a, root b) noexcept {
        std::uint8_t is;
        const auto told = ::rheap_same(&raw_, owner_of(a, b), a.id(), b.id(), &is);
        return of_call(told, is != 0);
    }
    bool same(root a, root b) { return try_same(a, b).value(); }

    // Fields in a row, from `from` on: numbers, and bytes, seven to a field. A load returns how
    // many were read.
    result<void> try_store_ints(root at, std::uint32_t from, const std::int64_t *numbers,
                                std::size_t length) noexcept {
        std::int64_t none = 0;
        return of_call(::rheap_store_ints(&raw_, at.owner, at.id(), from,
                                          length == 0 ? &none : numbers, length));
    }
    result<void> try_insist_store_ints(root at, std::uint32_t from, const std::int64_t *numbers,
                                       std::size_t length) noexcept {
        std::int64_t none = 0;
        return of_call(::rheap_insist_store_ints(&raw_, at.owner, at.id(), from,
                                                 length == 0 ? &none : numbers, length));
    }
    result<std::uint32_t> try_load_ints(root at, std::uint32_t from, std::int64_t *numbers,
                                        std::size_t length) noexcept {
        std::int64_t none = 0;
        std::uint32_t count;
        return of_call(::rheap_load_ints(&raw_, at.owner, at.id(), from,
                                         length == 0 ? &none : numbers, length, &count),
                       count);
    }
    result<void> try_store_text(root at, std::uint32_t from, std::string_view text) noexcept {
        return of_call(::rheap_store_text(&raw_, at.owner, at.id(), from,
                                          text.empty() ? "" : text.data(), text.size()));
    }
    result<void> try_insist_store_text(root at, std::uint32_t from,
                                       std::string_view text) noexcept {
        return of_call(::rheap_insist_store_text(&raw_, at.owner, at.id(), from,
                                                 text.empty() ? "" : text.data(), text.size()));
    }
    result<std::uint32_t> try_load_text(root at, std::uint32_t from, char *text,
                                        std::size_t length) noexcept {
        char none = 0;
        std::uint32_t count;
        return of_call(::rheap_load_text(&raw_, at.owner, at.id(), from,
                                         length == 0 ? &none : text, length, &count),
                       count);
    }
    // Of anything with data() and size(): a std::vector, a std::array, a std::span of std::int64_t.
    template <class Row>
    void store_ints(root at, std::uint32_t from, const Row &row) {
        try_store_ints(at, from, std::data(row), std::size(row)).value();
    }
    template <class Row>
    void insist_store_ints(root at, std::uint32_t from, const Row &row) {
        try_insist_store_ints(at, from, std::data(row), std::size(row)).value();
    }
    template <class Row>
    std::uint32_t load_ints(root at, std::uint32_t from, Row &&row) {
        return try_load_ints(at, from, std::data(row), std::size(row)).value();
    }
    void store_text(root at, std::uint32_t from, std::string_view text) {
        try_store_text(at, from, text).value();
    }
    void insist_store_text(root at, std::uint32_t from, std::string_view text) {
        try_insist_store_text(at, from, text).value();
    }
    std::string load_text(root at, std::uint32_t from, std::size_t length) {
        std::string text(length, '\0');
        text.resize(try_load_text(at, from, text.data(), length).value());
        return text;
    }

    // Roots in a row: `length` of them from `first` on, and the fields from `from` on of an object.
    // If `src` is one of the roots that are loaded, let it be the last. The try_ calls return how
    // many were done, also where one was refused; `values` has as many, where it isn't null.
    counted<void> try_load_roots(root first, root src, std::uint32_t from, value *values,
                                 std::size_t length) noexcept {
        // No owner has more slots, so of a longer row this many decide how it is refused.
        std::array<::rheap_value, RHEAP_MAX_SLOTS + 1> told;
        std::size_t count;
        const auto status =
            ::rheap_load_roots(&raw_, owner_of(first, src), first.id(), src.id(), from,
                               told.data(), length < told.size() ? length : told.size(), &count);
        for (std::size_t k = 0; values != nullptr && k < count; k++) {
            values[k] = detail::told(told[k]);
        }
        return {of_call(status), count};
    }
    counted<void> try_store_roots(root at, std::uint32_t from, root first,
                                  std::size_t length) noexcept {
        std::size_t count;
        const auto status = ::rheap_store_roots(&raw_, owner_of(at, first), at.id(), from,
                                                first.id(), length, &count);
        return {of_call(status), count};
    }
    counted<void> try_insist_store_roots(root at, std::uint32_t from, root first,
                                         std::size_t length) noexcept {
        std::size_t count;
        const auto status = ::rheap_insist_store_roots(&raw_, owner_of(at, first), at.id(), from,
                                                       first.id(), length, &count);
        return {of_call(status), count};
    }
    counted<void> try_drop_roots(root first, std::size_t length) noexcept {
        std::size_t count;
        const auto status =
            ::rheap_drop_roots(&raw_, first.owner, first.id(), length, &count);
        return {of_call(status), count};
    }
    // Of anything with data() and size(), as a vector of rh::value, which takes the values.
    template <class Row>
    void load_roots(root first, root src, std::uint32_t from, Row &&values) {
        try_load_roots(first, src, from, std::data(values), std::size(values)).value();
    }
    void store_roots(root at, std::uint32_t from, root first, std::size_t length) {
        try_store_roots(at, from, first, length).value();
    }
    void insist_store_roots(root at, std::uint32_t from, root first, std::size_t length) {
        try_insist_store_roots(at, from, first, length).value();
    }
    void drop_roots(root first, std::size_t length) { try_drop_roots(first, length).value(); }

    // The same where the values aren't looked at, in less work.
    counted<void> try_load_roots_untold(root first, root src, std::uint32_t from,
                                        std::size_t length) noexcept {
        std::size_t count;
        const auto status = ::rheap_load_roots_untold(&raw_, owner_of(first, src), first.id(),
                                                      src.id(), from, length, &count);
        return {of_call(status), count};
    }
    void load_roots_untold(root first, root src, std::uint32_t from, std::size_t length) {
        try_load_roots_untold(first, src, from, length).value();
    }
    // Values of all kinds in a row: `heap.store_row(frame, 1, {7, rh::nil, list})`.
    counted<void> try_store_row(root at, std::uint32_t from, values of) noexcept {
        std::size_t count;
        const auto status = ::rheap_store_row(&raw_, owner_of(at, of), at.id(), from, of.given(),
                                              of.size(), &count);
        return {of_call(status), count};
    }
    counted<void> try_insist_store_row(root at, std::uint32_t from, values of) noexcept {
        std::size_t count;
        const auto status = ::rheap_insist_store_row(&raw_, owner_of(at, of), at.id(), from,
                                                     of.given(), of.size(), &count);
        return {of_call(status), count};
    }
    void store_row(root at, std::uint32_t from, values of) { try_store_row(at, from, of).value(); }
    void insist_store_row(root at, std::uint32_t from, values of) {
        try_insist_store_row(at, from, of).value();
    }

    // Follows a path of fields, as `heap.load_path(third, list, {1, 1, 0})`. The value is the last
    // that was loaded: nil where there are no fields, and `dst` is as it was then.
    counted<value> try_load_path(root dst, root src, const std::uint32_t *fields,
                                 std::size_t length) noexcept {
        std::uint32_t none = 0;
        std::size_t count;
        ::rheap_value of;
        const auto status = ::rheap_load_path(&raw_, owner_of(dst, src), dst.id(), src.id(),
                                              length == 0 ? &none : fields, length, &count, &of);
        return {of_call(status, of), count};
    }
    counted<value> try_load_path(root dst, root src,
                                 std::initializer_list<std::uint32_t> fields) noexcept {
        return try_load_path(dst, src, std::data(fields), std::size(fields));
    }
    template <class Row>
    value load_path(root dst, root src, const Row &fields) {
        return try_load_path(dst, src, std::data(fields), std::size(fields)).value();
    }
    value load_path(root dst, root src, std::initializer_list<std::uint32_t> fields) {
        return try_load_path(dst, src, fields).value();
    }

    // Watching objects. A heap begins without tickets.
    result<void> try_watch_room(std::uint32_t additional) noexcept {
        return of_call(::rheap_watch_room(&raw_, additional));
    }
    void watch_room(std::uint32_t additional) { try_watch_room(additional).value(); }
    result<ticket> try_watch(root at) noexcept {
        ticket of;
        return of_call(::rheap_watch(&raw_, at.owner, at.id(), &of.number), of);
    }
    ticket watch(root at) { return try_watch(at).value(); }
    // Where the object may be gone already, take try_unwatch: NOT_WATCHED is no mistake then.
    result<void> try_unwatch(ticket of) noexcept {
        return of_call(::rheap_unwatch(&raw_, of.number));
    }
    void unwatch(ticket of) { try_unwatch(of).value(); }
    // The next ticket whose object is gone, which is free from then on.
    result<std::optional<ticket>> try_next_gone() noexcept {
        ticket of;
        std::uint8_t is;
        const auto status = ::rheap_next_gone(&raw_, &of.number, &is);
        if (status != RHEAP_DONE) return static_cast<rh::status>(status);
        return is != 0 ? std::optional<ticket>(of) : std::nullopt;
    }
    std::optional<ticket> next_gone() { return try_next_gone().value(); }
    // All of them, in a loop: `for (rh::ticket lost : heap.gone()) ..`.
    rh::gone gone() noexcept;

    // The collector.
    result<void> try_collect() noexcept { return of_call(::rheap_collect(&raw_)); }
    void collect() { try_collect().value(); }
    result<void> try_increment() noexcept { return of_call(::rheap_increment(&raw_)); }
    void increment() { try_increment().value(); }
    result<::rheap_stats> try_stat() noexcept {
        ::rheap_stats of;
        return of_call(::rheap_stat(&raw_, &of), of);
    }
    ::rheap_stats stat() { return try_stat().value(); }
    result<::rheap_did> try_last_did() noexcept {
        ::rheap_did of;
        return of_call(::rheap_last_did(&raw_, &of), of);
    }
    ::rheap_did last_did() { return try_last_did().value(); }
    result<::rheap_pacing> try_pace() noexcept {
        ::rheap_pacing of;
        return of_call(::rheap_pace(&raw_, &of), of);
    }
    ::rheap_pacing pace() { return try_pace().value(); }
    result<::rheap_words> try_room(std::uint32_t fields) noexcept {
        ::rheap_words of;
        return of_call(::rheap_room(&raw_, fields, &of), of);
    }
    ::rheap_words room(std::uint32_t fields) { return try_room(fields).value(); }
    // Whether a heap that grows has too few words.
    result<rh::shortage> try_shortage() noexcept {
        std::uint8_t is = 0;
        const auto status = ::rheap_short(&raw_, &is);
        return of_call(status, static_cast<rh::shortage>(is));
    }
    rh::shortage shortage() { return try_shortage().value(); }
    // The cycle that ended since the reader's last reading, if one did. A reader is for one heap.
    result<std::optional<::rheap_ended_cycle>> try_cycle(cycle_reader &by) noexcept {
        ::rheap_ended_cycle of;
        const auto status = ::rheap_cycle(&raw_, &by.raw_, &of);
        if (status != RHEAP_DONE) return static_cast<rh::status>(status);
        return of.is != 0 ? std::optional<::rheap_ended_cycle>(of) : std::nullopt;
    }
    std::optional<::rheap_ended_cycle> cycle(cycle_reader &by) { return try_cycle(by).value(); }
    // Gives a heap of fixed sizes so many words, at its own ratio: as rheap_resize_sized, and as
    // rheap_resize where no more than so many are to live at once. NO_PACE, BAD_SIZES, IN_USE where
    // what is in use doesn't fit, NO_MEMORY, GROWS: nothing has changed then.
    result<void> try_resize(std::uint32_t words, std::uint32_t biggest) noexcept {
        return of_call(::rheap_resize_sized(&raw_, words, biggest));
    }
    result<void> try_resize_for(std::uint32_t words, std::uint32_t live,
                                std::uint32_t biggest) noexcept {
        return of_call(::rheap_resize(&raw_, words, live, biggest));
    }
    void resize(std::uint32_t words, std::uint32_t biggest) { try_resize(words, biggest).value(); }
    void resize_for(std::uint32_t words, std::uint32_t live, std::uint32_t biggest) {
        try_resize_for(words, live, biggest).value();
    }
    // Gives memory back. CYCLE_ON where a cycle is on.
    result<void> try_release() noexcept { return of_call(::rheap_release(&raw_)); }
    void release() { try_release().value(); }

    // What the heap looks like. These aren't noexcept: a string takes memory of its own.
    result<std::string> try_dump() {
        return text_of([this](char *text, std::size_t length, std::size_t *needs) {
            return ::rheap_dump_into(&raw_, text, length, needs);
        });
    }
    std::string dump() { return try_dump().value(); }
    result<std::string> try_draw() {
        return text_of([this](char *text, std::size_t length, std::size_t *needs) {
            return ::rheap_draw_into(&raw_, text, length, needs);
        });
    }
    std::string draw() { return try_draw().value(); }

private:
    // A text that a call writes whole: it is called again with a larger string until the text fits.
    template <class Call>
    static result<std::string> text_of(const Call &call) {
        std::string text(512, '\0');
        std::size_t needs = 0;
        std::uint8_t told;
        while ((told = call(text.data(), text.size(), &needs)) == RHEAP_TOO_LONG) {
            text.resize(needs);
        }
        if (told != RHEAP_DONE) return static_cast<rh::status>(told);
        text.resize(needs);
        return text;
    }

    // The second is lent, and not read before the call is done.
    static result<void> of_call(std::uint8_t told) noexcept { return static_cast<status>(told); }
    template <class T>
    static result<T> of_call(std::uint8_t told, const T &of) noexcept {
        if (told == RHEAP_DONE) return of;
        return static_cast<status>(told);
    }
    static result<value> of_call(std::uint8_t told, const ::rheap_value &of) noexcept {
        if (told == RHEAP_DONE) return detail::told(of);
        return static_cast<status>(told);
    }
    static std::uint32_t owner_of(root a, root b) noexcept {
        return a.owner != 0 ? a.owner : b.owner;
    }
    static std::uint32_t owner_of(root dst, const values &of) noexcept {
        std::uint32_t owner = dst.owner;
        for (const init &each : of) {
            if (owner != 0) break;
            owner = each.owner();
        }
        return owner;
    }

    ::rheap raw_ = RHEAP_INIT;
};

// --- Tickets that are told ---

// The tickets whose objects are gone, for one loop. Each is told as the loop comes to it, by
// heap::next_gone, which throws NOT_OPEN. So after a `break` the others wait for the next loop.
class gone {
public:
    class iterator {
    public:
        using iterator_category = std::input_iterator_tag;
        using value_type = ticket;
        using difference_type = std::ptrdiff_t;
        using pointer = const ticket *;
        using reference = const ticket &;

        iterator() noexcept = default;
        reference operator*() const noexcept { return *told_; }
        pointer operator->() const noexcept { return &*told_; }
        iterator &operator++() {
            told_ = heap_->next_gone();
            return *this;
        }
        std::optional<ticket> operator++(int) { return std::exchange(told_, heap_->next_gone()); }
        // Any two are equal where neither has a ticket.
        friend bool operator==(const iterator &a, const iterator &b) noexcept {
            return a.told_ == b.told_;
        }
        friend bool operator!=(const iterator &a, const iterator &b) noexcept { return !(a == b); }

    private:
        friend class gone;
        explicit iterator(heap &of) : heap_(&of), told_(of.next_gone()) {}
        heap *heap_ = nullptr;
        std::optional<ticket> told_;
    };

    explicit gone(heap &of) noexcept : heap_(&of) {}
    // The next ticket is told.
    iterator begin() const { return iterator(*heap_); }
    iterator end() const noexcept { return {}; }

private:
    heap *heap_;
};

inline gone heap::gone() noexcept {
    return rh::gone(*this);
}

// --- Scoped roots ---

// Slots of one owner, of which scoped roots are made; whatever they held, they are nil then.
// Nothing sees that two of these overlap: make one for each owner, or give each slots of its own.
// It takes no memory. It names the heap, and its scoped roots name it: so both stay in their
// places, it ends before the heap, and its scoped roots end before it.
class slots {
public:
    // So many slots from `first` on.
    slots(heap &of, std::uint32_t owner, std::uint32_t first, std::uint32_t count) noexcept
        : heap_(&of), owner_(owner) {
        for (left_ = 0; left_ < count && left_ < free_.size(); left_++) {
            free_[left_] = first + (count < free_.size() ? count : RHEAP_MAX_SLOTS) - 1 - left_;
        }
        std::size_t dropped;
        (void)::rheap_drop_roots(heap_->handle(), owner, ::rheap_slot(owner, first), left_,
                                 &dropped);
    }
    slots(const slots &) = delete;
    slots &operator=(const slots &) = delete;
    std::uint32_t left() const noexcept { return left_; }

private:
    friend class scoped_root;
    heap *heap_;
    std::uint32_t owner_;
    std::uint32_t left_ = 0;
    std::array<std::uint32_t, RHEAP_MAX_SLOTS> free_{};
};

// A root that is its own: it takes a slot, which is nil, and makes it nil again and gives it back
// where it ends, in any order. A swap of two is no call of the heap, and neither is a move. One
// that was moved from has no slot: what is asked of it is NO_ROOT.
class scoped_root {
public:
    scoped_root() noexcept = default;
    // Throws NO_ROOT where no slot is left.
    explicit scoped_root(slots &from) : scoped_root(from, std::nothrow) {
        if (!*this) detail::refuse(status::no_root);
    }
    // Has no slot where none is left.
    scoped_root(slots &from, std::nothrow_t) noexcept {
        if (from.left_ > 0) {
            from_ = &from;
            root_ = root{from.owner_, from.free_[--from.left_]};
        }
    }
    scoped_root(scoped_root &&other) noexcept { swap(*this, other); }
    scoped_root &operator=(scoped_root &&other) noexcept {
        scoped_root taken(std::move(other));
        swap(*this, taken);
        return *this;
    }
    scoped_root(const scoped_root &) = delete;
    scoped_root &operator=(const scoped_root &) = delete;
    ~scoped_root() {
        if (from_ != nullptr) {
            (void)::rheap_drop(from_->heap_->handle(), root_.owner, root_.id());
            from_->free_[from_->left_++] = root_.slot;
        }
    }
    friend void swap(scoped_root &a, scoped_root &b) noexcept {
        std::swap(a.from_, b.from_);
        std::swap(a.root_, b.root_);
    }

    explicit operator bool() const noexcept { return from_ != nullptr; }
    // The name of its slot. A temporary gives none: its slot is nil when the statement ends.
    operator root() const & noexcept { return root_; }
    operator root() const && = delete;

private:
    slots *from_ = nullptr;
    root root_{UINT32_MAX, UINT32_MAX};
};

} // namespace rh

template <>
struct std::is_error_code_enum<rh::status> : std::true_type {};

template <>
struct std::hash<rh::ticket> {
    std::size_t operator()(rh::ticket of) const noexcept {
        return std::hash<std::uint64_t>()(of.number);
    }
};

#endif
