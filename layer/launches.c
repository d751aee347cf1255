/* launches.c: a launch, as kverify.h has it. */
#include "layer.h"
#include <stdarg.h>

bool answer_is(struct answer *answer, enum verdict verdict, const char *format, ...) {
    va_list words;
    answer->verdict = verdict;
    va_start(words, format);
    vsnprintf(answer->words, sizeof answer->words, format, words);
    va_end(words);
    return false;
}

bool launch_is_faulty(const struct kernel *kernel, const struct call *call) {
    cl_uint at;
    if (call->dimensions < 1 || call->dimensions > 3 || !call->global) return true;
    for (at = 0; at < call->dimensions; at++)
        if (call->local && !call->local[at]) return true;
    for (at = 0; at < kernel->arguments_n; at++)
        if (!kernel->arguments[at].is_set) return true;
    return false;
}

static bool sizes_make(kv_range *range, const struct kernel *kernel, const struct call *call, struct answer *answer) {
    cl_uint at;
    if (!call->local && !kernel->size[0]) return answer_is(answer, NOT_SHOWN, "no local size: the device chooses one");
    range->dimensions = call->dimensions;
    for (at = 0; at < call->dimensions; at++) {
        range->global[at] = call->global[at];
        range->local[at] = call->local ? call->local[at] : kernel->size[at];
        if (call->offset && call->offset[at]) return answer_is(answer, NOT_SHOWN, "a global offset in dimension %u", at);
    }
    return true;
}

/* The memory of an argument, or NULL. */
static const struct memory *memory_of(const struct argument *argument) {
    const struct memory *memory =
        argument->memory ? (const struct memory *)object_find(argument->memory, OBJECT_MEMORY) : NULL;
    return memory && memory->serial == argument->serial ? memory : NULL;
}

static bool overlaps(const struct memory *one, const struct memory *other) {
    return one->space == other->space && one->begin < other->begin + other->bytes && other->begin < one->begin + one->bytes;
}

/* Numbers the memory of buffers: those that have bytes in common get one number. */
static void number(struct launch *launch, const struct memory *const *memories) {
    uint32_t at, before;
    for (at = 0; at < launch->arguments_n; at++) {
        if (!memories[at]) continue;
        for (before = 0; before < at; before++)
            if (memories[before] && overlaps(memories[before], memories[at])) break;
        launch->arguments[at].memory = before < at ? launch->arguments[before].memory : (uint64_t)at + 1;
        if (memories[at]->is_read_only) launch->read_only |= (uint64_t)1 << at;
    }
}

bool launch_make(struct launch *launch, const struct kernel *kernel, const struct call *call, struct answer *answer) {
    const struct memory *memories[ARGUMENTS_MOST] = {0};
    cl_uint at;
    memset(&launch->range, 0, sizeof launch->range);
    launch->read_only = 0;
    launch->has_contents = false;
    launch->arguments_n = kernel->arguments_n;
    if (kernel->arguments_n > ARGUMENTS_MOST) return answer_is(answer, NOT_READ, "over %d arguments", ARGUMENTS_MOST);
    if (!sizes_make(&launch->range, kernel, call, answer)) return false;
    for (at = 0; at < kernel->arguments_n; at++) {
        const struct argument *argument = &kernel->arguments[at];
        if (argument->is_unknown) return answer_is(answer, NOT_READ, "argument %u is of a kind that is not read", at);
        memories[at] = memory_of(argument);
        if (argument->memory && !memories[at]) return answer_is(answer, NOT_SHOWN, "the buffer of argument %u was let go", at);
        launch->arguments[at] = argument->said;
        launch->contents[at] = (struct contents){0, 0, 0};
    }
    number(launch, memories);
    return true;
}

bool launch_is_same(const struct launch *one, const struct launch *other) {
    return one->arguments_n == other->arguments_n && one->read_only == other->read_only &&
           !memcmp(&one->range, &other->range, sizeof one->range) &&
           !memcmp(one->arguments, other->arguments, one->arguments_n * sizeof *one->arguments) &&
           !memcmp(one->contents, other->contents, one->arguments_n * sizeof *one->contents);
}
