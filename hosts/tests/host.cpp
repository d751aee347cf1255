// A host in C++ on OpenCL: as host.c, by kverify.hpp and kverify_cl.hpp. What is refused is thrown before anything is launched.
#include "kverify_cl.hpp"
#include "trial.h"
#ifndef KERNELS
#define KERNELS "kernels.h"
#endif
#include KERNELS

namespace {

// What a call is refused by; 0 where it is not.
template <class Call>
kv_answer refusal_of(const Call &call) {
    try {
        call();
    } catch (const kverify::refused &why) {
        return why.answer;
    }
    return kv_answer{};
}

// Whether a call is refused by this number at this place.
template <class Call>
bool is_refused(uint32_t number, uint64_t place, const Call &call) {
    kv_answer why = refusal_of(call);
    bool is_right = why.number == number && why.place == place;
    if (!is_right) std::printf("number %u, place %llu, ", why.number, static_cast<unsigned long long>(why.place));
    return is_right;
}

template <class T>
cl_mem buffer_with(const trial &t, const std::vector<T> &content) {
    return buffer_of(&t, content.data(), content.size() * sizeof(T));
}

template <class T>
void expect_content(trial &t, const char *what, cl_mem buffer, const std::vector<T> &wanted) {
    ::expect_content(&t, what, buffer, wanted.data(), wanted.size() * sizeof(T));
}

void fills_and_guards(trial &t) {
    cl_mem a = buffer_with(t, std::vector<cl_uint>(128, 0));
    kverify::launcher fill(t.context, t.device, KV_TEXTS(fill));
    fill.buffer(0, a);
    fill.value(1, cl_uint{7});
    fill.enqueue(t.queue, {128}, {64});
    expect_content(t, "fill fills", a, std::vector<cl_uint>(128, 7));

    kverify::launcher guard(t.context, t.device, KV_TEXTS(guard));
    guard.buffer(0, a);
    expect(&t, is_refused(KV_ARGUMENTS, 1, [&] { guard.enqueue(t.queue, {128}, {64}); }), "an argument that was not set is 41");
    guard.value(1, cl_ulong{100});
    expect(&t, is_refused(KV_ARGUMENTS, 1, [&] { guard.enqueue(t.queue, {128}, {64}); }), "eight bytes for a uint are 41");
    guard.value(1, cl_uint{129});
    expect(&t, is_refused(KV_UNMET, 4, [&] { guard.enqueue(t.queue, {192}, {64}); }), "n past the buffer's end is 40");
    guard.value(1, cl_uint{128});
    expect(&t, is_refused(KV_SIZES, 0, [&] { guard.enqueue(t.queue, {100}, {64}); }), "100 items in groups of 64 are 42");
    expect_content(t, "nothing was launched of guard", a, std::vector<cl_uint>(128, 7));
    guard.enqueue(t.queue, {128}, {64});
    expect_content(t, "guard adds one", a, std::vector<cl_uint>(128, 8));
    clReleaseMemObject(a);
}

void brightens(trial &t) {
    std::vector<cl_uchar> pixels(20 * 7), brighter(20 * 7);
    for (size_t i = 0; i < pixels.size(); i++) {
        pixels[i] = static_cast<cl_uchar>(i * 11);
        brighter[i] = static_cast<cl_uchar>(std::min(255, pixels[i] + 30));
    }
    cl_mem buffer = buffer_with(t, pixels);
    kverify::launcher brighten(t.context, t.device, KV_TEXTS(brighten));
    brighten.buffer(0, buffer);
    brighten.value(1, cl_char{30});
    brighten.value(2, cl_int{20});
    brighten.value(3, cl_int{7});
    expect(&t, is_refused(KV_SIZES, 1, [&] { brighten.enqueue(t.queue, {32, 6}, {16, 4}); }), "6 rows in groups of 4 are 42");
    brighten.enqueue(t.queue, {32, 8}, {16, 4});
    expect_content(t, "brighten makes pixels brighter by 30", buffer, brighter);
    clReleaseMemObject(buffer);
}

void scales(trial &t) {
    std::vector<cl_float> numbers(128), scaled(128);
    const cl_float4 factors = {{2.0f, -1.0f, 0.5f, 0.0f}};
    for (size_t i = 0; i < numbers.size(); i++) scaled[i] = (numbers[i] = static_cast<cl_float>(i)) * factors.s[i % 4];
    cl_mem points = buffer_with(t, numbers);
    kverify::launcher scale(t.context, t.device, KV_TEXTS(scale));
    scale.buffer(0, points);
    scale.value(1, 1.0f);
    scale.value(2, cl_uint{32});
    expect(&t, is_refused(KV_ARGUMENTS, 1, [&] { scale.enqueue(t.queue, {32}, {32}); }), "a float for a float4 is 41");
    scale.value(1, factors);
    scale.enqueue(t.queue, {32}, {32});
    expect_content(t, "scale scales", points, scaled);
    clReleaseMemObject(points);
}

void sums(trial &t) {
    std::vector<cl_ushort> numbers(128);
    std::vector<cl_uint> wanted(2, 0);
    for (size_t i = 0; i < numbers.size(); i++) wanted[i / 64] += numbers[i] = static_cast<cl_ushort>(i * 517);
    cl_mem in = buffer_with(t, numbers), out = buffer_with(t, std::vector<cl_uint>(2, 0));
    kverify::launcher group_sums(t.context, t.device, KV_TEXTS(group_sums));
    group_sums.buffer(0, in);
    group_sums.buffer(1, out);
    group_sums.local(2, 63 * sizeof(cl_uint));
    expect(&t, is_refused(KV_ARGUMENTS, 2, [&] { group_sums.enqueue(t.queue, {128}, {64}); }), "local memory of 63 elements is 41");
    group_sums.local(2, 64 * sizeof(cl_uint));
    group_sums.enqueue(t.queue, {128}, {64});
    expect_content(t, "group_sums sums", out, wanted);
    clReleaseMemObject(in);
    clReleaseMemObject(out);
}

void halves(trial &t) {
    std::vector<cl_uint> numbers(2048), wanted(2048);
    for (size_t i = 0; i < numbers.size(); i++) numbers[i] = static_cast<cl_uint>(3 * i);
    wanted = numbers;
    for (size_t i = 0; i < 100; i++) wanted[i] = numbers[1024 + i] / 2;
    cl_mem whole = buffer_with(t, numbers), front = part_of(whole, 0, 4096), behind = part_of(whole, 4096, 4096);
    kverify::launcher halve(t.context, t.device, KV_TEXTS(halve));
    halve.buffer(0, whole);
    halve.buffer(1, behind);
    halve.value(2, cl_uint{100});
    expect(&t, is_refused(KV_SHARED, 1, [&] { halve.enqueue(t.queue, {128}, {64}); }), "a buffer and a part of it are 44");
    halve.buffer(0, front);
    halve.enqueue(t.queue, {128}, {64});
    expect_content(t, "halve halves, from one part to the other", whole, wanted);
    for (cl_mem it : {whole, front, behind}) clReleaseMemObject(it);
}

void multiplies(trial &t) {
    cl_mem buffers[] = {buffer_with(t, std::vector<cl_int>(3, 0)), buffer_with(t, std::vector<cl_uint>{0, 2, 2, 5}),
                        buffer_with(t, std::vector<cl_uint>{0, 3, 1, 2, 3}), buffer_with(t, std::vector<cl_int>{1, -2, 3, 4, 5}),
                        buffer_with(t, std::vector<cl_int>{10, 20, 30, 40})};
    kverify::launcher csr_row(t.context, t.device, KV_TEXTS(csr_row));
    for (cl_uint i = 0; i < 5; i++) csr_row.buffer(i, buffers[i]);
    for (cl_uint i = 0; i < 3; i++) csr_row.value(5 + i, cl_uint{3 + i});
    expect(&t, is_refused(KV_UNSAID, 11, [&] { csr_row.enqueue(t.queue, {64}, {64}); }), "contents that nobody answers for are 45");
    csr_row.enqueue(t.queue, {64}, {64}, true);
    expect_content(t, "csr_row multiplies", buffers[0], std::vector<cl_int>{-70, 0, 380});
    for (cl_mem it : buffers) clReleaseMemObject(it);
}

void smooths(trial &t) {
    std::vector<cl_int> numbers(64, 70), wanted(64, -1);
    cl_mem in = buffer_with(t, numbers), out = buffer_with(t, wanted);
    kverify::launcher smooth(t.context, t.device, KV_TEXTS(smooth_rows)), negate(t.context, t.device, KV_TEXTS(smooth_negate));
    smooth.buffer(0, in);
    smooth.buffer(1, out);
    smooth.value(2, cl_uint{50});
    smooth.enqueue(t.queue, {64}, {64});
    std::fill(wanted.begin() + 3, wanted.begin() + 47, 70);
    expect_content(t, "the first kernel of a file reaches as far as its conditions define", out, wanted);
    negate.buffer(0, out);
    negate.value(1, cl_uint{64});
    negate.enqueue(t.queue, {64}, {64});
    for (cl_int &it : wanted) it = ~it;
    expect_content(t, "the second kernel of a file is the second one", out, wanted);
    clReleaseMemObject(in);
    clReleaseMemObject(out);
}

void answers_of_numbers(trial &t) {
    kverify::kernel guard(KV_TEXTS(guard));
    const kv_argument n = kverify::value(cl_uint{3});
    int memory = 0;
    const kverify::arguments right{kverify::buffer(12, &memory), n}, many{kverify::buffer(uint64_t{4} << 32, &memory), n};
    kv_range offset = kverify::range({64}, {64});
    offset.offset[0] = 64;
    guard.allow(kverify::range({64}, {64}), right);
    expect(&t, is_refused(KV_OFFSET, 0, [&] { guard.allow(offset, right); }), "an offset is 43");
    expect(&t, is_refused(KV_LONG, 0, [&] { guard.allow(kverify::range({64}, {64}), many); }), "4294967296 elements are 47");
    expect(&t, is_refused(KV_ARGUMENTS, 0, [&] { guard.allow(kverify::range({64}, {64}), {}); }), "no arguments are 41");
}

void runs_here(trial &t) {
    const kverify::texts guard{{KV_TEXT(guard)}, {KV_CONDITIONS(guard)}, {KV_CERTIFICATE(guard)}};
    const std::string launch = "launch 1\ngroups 1 1 1\narg n 2\nbuffer a list 1 2 3\nfill 0\n", ends = "buffer a list 2 3 3\n";
    expect(&t, kverify::run(guard, launch) == ends, "guard is run on the calling thread");
    expect(&t, kverify::run(guard, launch, 0, 1) == ends, "and again where the room is too small");
    const kv_answer unmet = refusal_of([&] { kverify::run(guard, "launch 1\ngroups 1 1 1\narg n 4\nbuffer a list 1 2 3\nfill 0\n"); });
    expect(&t, unmet.number == KV_UNMET && unmet.place == 4, "a launch that does not meet a condition is not run");
}

void opens_nothing_else(trial &t) {
    const kverify::texts wrong{{KV_TEXT(guard)}, {KV_CONDITIONS(guard)}, {KV_CERTIFICATE(fill)}};
    try {
        kverify::launcher guard(t.context, t.device, wrong);
        expect(&t, false, "a certificate of another kernel is 52");
    } catch (const kverify::refused &why) {
        bool is_explained = std::string(why.what()) == kverify::explain(wrong) && std::strncmp(why.what(), "refused 52", 10) == 0;
        expect(&t, why.answer.number == 52 && is_explained, "a certificate of another kernel is 52, and explained");
    }
    expect_number(&t, "texts of no bytes are 10", refusal_of([] { kverify::kernel nothing(kverify::texts{}); }).number, 10);
    expect(&t, kverify::options_of({KV_CONDITIONS(smooth_rows)}) == "-DREACH=3", "the options of conditions");
}

}  // namespace

int main() {
    trial t = trial_of_first_device();
    try {
        fills_and_guards(t);
        brightens(t);
        scales(t);
        sums(t);
        halves(t);
        multiplies(t);
        smooths(t);
        answers_of_numbers(t);
        runs_here(t);
        opens_nothing_else(t);
    } catch (const std::exception &error) {
        expect(&t, false, error.what());
    }
    return trial_ends(&t);
}
