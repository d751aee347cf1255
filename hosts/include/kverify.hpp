// kverify.hpp: kverify.h for C++ 17. Header only. What is refused is thrown, as `kverify::refused`; want of memory is std::bad_alloc.
#ifndef KVERIFY_HPP
#define KVERIFY_HPP
#include <array>
#include <cstring>
#include <initializer_list>
#include <memory>
#include <new>
#include <stdexcept>
#include <string>
#include <string_view>
#include <type_traits>
#include <vector>
#include "kverify.h"

namespace kverify {

// The bytes stay the caller's.
struct texts {
    std::string_view kernel, conditions, certificate;
};

// A refusal, with the numbers of kv_answer. `what` is the text of `kverify explain`, or says of a launch what is wrong.
struct refused : std::runtime_error {
    kv_answer answer;
    refused(const kv_answer &why, const std::string &text) : std::runtime_error(text), answer(why) {}
};

// What a refusal of a launch means.
inline std::string words_of(const kv_answer &answer) {
    static const struct {
        uint32_t number;
        const char *front, *behind;
    } all[] = {
        {KV_UNMET, "the launch does not meet line ", " of the conditions"},
        {KV_ARGUMENTS, "argument ", " is missing, too much, or of another kind or size than its parameter"},
        {KV_SIZES, "the sizes in dimension ", " are not 1 to 65536 whole groups of the kernel's size"},
        {KV_OFFSET, "there is an offset in dimension ", ""},
        {KV_SHARED, "argument ", " is the same memory as an earlier one"},
        {KV_UNSAID, "line ", " of the conditions says what a buffer holds, which nobody answers for"},
        {KV_LONG, "argument ", " is a buffer of over 4294967295 elements"},
    };
    std::string text = "refused " + std::to_string(answer.number);
    for (const auto &it : all)
        if (it.number == answer.number) return text + ": " + it.front + std::to_string(answer.place) + it.behind;
    return text + ", place " + std::to_string(answer.place);
}

// Where a text begins; of none this is no null pointer.
inline const char *data_of(std::string_view text) { return text.data() ? text.data() : ""; }

// A text of a call that gives its whole length, and puts as much as there is room for.
template <class Call>
std::string text_of(const Call &call) {
    std::string text(call(nullptr, 0), '\0');
    text.resize(call(text.data(), text.size()));
    return text;
}

// What `kverify explain` says of texts.
inline std::string explain(const texts &t, uint32_t options = 0) {
    char none = 0;
    return text_of([&](char *room, size_t n) {
        return kv_explain(data_of(t.kernel), t.kernel.size(), data_of(t.conditions), t.conditions.size(), data_of(t.certificate),
                          t.certificate.size(), options, room ? room : &none, n);
    });
}

// The options that a program is to be built with.
inline std::string options_of(std::string_view conditions) {
    char none = 0;
    return text_of([&](char *room, size_t n) { return kv_options(data_of(conditions), conditions.size(), room ? room : &none, n); });
}

inline void throw_if(const kv_answer &answer, const std::string &text) {
    if (answer.number == KV_MEMORY) throw std::bad_alloc();
    if (answer.number != KV_OK) throw refused(answer, text);
}

// The text of the buffers with which a launch ends, by its text, run on the calling thread (kv_run). A room that is too small is told the
// length, and the launch is run again.
inline std::string run(const texts &t, std::string_view launch, uint32_t options = 0, size_t room = 1 << 16) {
    kv_answer answer{};
    uint64_t whole = 0;
    std::string text(room ? room : 1, '\0');
    for (;;) {
        kv_run(data_of(t.kernel), t.kernel.size(), data_of(t.conditions), t.conditions.size(), data_of(t.certificate), t.certificate.size(),
               data_of(launch), launch.size(), options, text.data(), text.size(), &whole, &answer);
        throw_if(answer, "refused " + std::to_string(answer.number) + ", place " + std::to_string(answer.place));
        bool is_whole = whole <= text.size();
        text.resize(whole);
        if (is_whole) return text;
    }
}

// Sizes as clEnqueueNDRangeKernel gets them: one to three of each.
inline kv_range range(std::initializer_list<uint64_t> global, std::initializer_list<uint64_t> local) {
    kv_range made{};
    if (global.size() < 1 || global.size() > 3 || local.size() != global.size()) throw std::invalid_argument("one to three sizes");
    made.dimensions = static_cast<uint32_t>(global.size());
    std::memcpy(made.global, global.begin(), global.size() * sizeof(uint64_t));
    std::memcpy(made.local, local.begin(), local.size() * sizeof(uint64_t));
    return made;
}

// A value, by its bytes: of the type that the parameter has (int32_t and no int64_t for an int), or an array of it for a vector.
template <class T>
kv_argument value(const T &given) {
    static_assert(std::is_trivially_copyable_v<T> && !std::is_pointer_v<T> && sizeof(T) <= sizeof(kv_argument::words));
    kv_argument made{};
    made.kind = KV_VALUE;
    made.bytes = sizeof given;
    std::memcpy(made.words, &given, sizeof given);
    return made;
}

inline kv_argument buffer(uint64_t bytes, const void *memory) {
    kv_argument made{};
    made.kind = KV_BUFFER;
    made.bytes = bytes;
    made.memory = reinterpret_cast<uintptr_t>(memory);
    return made;
}

inline kv_argument local(uint64_t bytes) {
    kv_argument made{};
    made.kind = KV_LOCAL;
    made.bytes = bytes;
    return made;
}

using arguments = std::vector<kv_argument>;

inline const kv_argument *data_of(const arguments &given) {
    static const kv_argument none{};
    return given.empty() ? &none : given.data();
}

// A kernel that is accepted. It may be used by many threads at once.
class kernel {
    struct closer {
        void operator()(kv_kernel *handle) const noexcept { kv_close(handle); }
    };
    std::unique_ptr<kv_kernel, closer> handle_;
    uint32_t options_;

  public:
    explicit kernel(const texts &t, uint32_t options = 0) : options_(options & KV_BITS32) {
        kv_answer answer{};
        kv_kernel *handle = nullptr;
        if (kv_open(data_of(t.kernel), t.kernel.size(), data_of(t.conditions), t.conditions.size(), data_of(t.certificate),
                    t.certificate.size(), options_, &handle, &answer) != KV_OK)
            throw_if(answer, answer.number == KV_MEMORY ? "" : explain(t, options_));
        handle_.reset(handle);
    }

    // Returns where the launch meets the conditions. `held`: the host answers for what `values` lines say of its buffers.
    void allow(const kv_range &sizes, const arguments &given, bool held = false) const {
        kv_answer answer{};
        if (kv_allows(handle_.get(), options_ | (held ? KV_HELD : 0u), &sizes, data_of(given), given.size(), &answer) != KV_OK)
            throw_if(answer, words_of(answer));
    }
};

}  // namespace kverify
#endif
