/* contents.c: what buffers hold when a launch begins (KVERIFY_READ).
 *
 * They are read before the launch, on its queue, behind what that has and what the launch waits for. The least and the greatest word are
 * kept: a line `values` asks for no more. What a queue has may wait for the program itself, so nobody here waits for long. */
#include "layer.h"

/* The largest buffer that is read. */
#define READ_MOST 67108864u

static void CL_CALLBACK free_late(cl_event event, cl_int status, void *bytes) {
    (void)event, (void)status;
    free(bytes);
}

/* What a buffer holds, or NULL. Where that takes too long, the bytes are freed when OpenCL has put it there. */
static unsigned char *bytes_of(const struct call *call, cl_mem memory, size_t n, bool *is_late) {
    static const struct timespec step = {0, 20000};
    double deadline = seconds_now() + settings.seconds;
    unsigned char *bytes = malloc(n);
    cl_int status = CL_QUEUED;
    cl_event event;
    if (!bytes || below.clEnqueueReadBuffer(call->queue, memory, CL_FALSE, 0, n, bytes, call->events_n, call->events, &event)) {
        free(bytes);
        return NULL;
    }
    below.clFlush(call->queue);
    while (!below.clGetEventInfo(event, CL_EVENT_COMMAND_EXECUTION_STATUS, sizeof status, &status, NULL) && status > CL_COMPLETE &&
           seconds_now() < deadline)
        nanosleep(&step, NULL);
    *is_late = status > CL_COMPLETE;
    if (*is_late) below.clSetEventCallback(event, CL_COMPLETE, free_late, bytes);
    else if (status < CL_COMPLETE || below.clWaitForEvents(1, &event)) free(bytes), bytes = NULL;
    below.clReleaseEvent(event);
    return *is_late ? NULL : bytes;
}

/* Has a queue without an order end what it has. */
static bool is_in_order(const struct call *call) {
    cl_command_queue_properties properties = 0;
    if (below.clGetCommandQueueInfo(call->queue, CL_QUEUE_PROPERTIES, sizeof properties, &properties, NULL)) return false;
    return !(properties & CL_QUEUE_OUT_OF_ORDER_EXEC_MODE_ENABLE) ||
           !below.clEnqueueBarrierWithWaitList(call->queue, call->events_n, call->events, NULL);
}

/* A bit for each argument of which a line `values` speaks. */
static uint64_t spoken_of(const char *conditions, const struct launch *launch) {
    uint64_t spoken = 0;
    const char *line = conditions;
    for (; line; line = next_line(line)) {
        int at = strncmp(line, "values ", 7) ? -1 : conditions_buffer(conditions, launch, 0, line + 7, strcspn(line + 7, " \n"));
        if (at >= 0) spoken |= (uint64_t)1 << at;
    }
    return spoken;
}

/* Elements of less than 32 bits are words without a sign, also those of signed types: a load gives them one (docs/LAYER.md). */
static void contents_of(const struct parameter *parameter, const unsigned char *bytes, size_t n, struct contents *contents) {
    int64_t least = INT64_MAX, most = INT64_MIN;
    size_t at;
#define LOOK(TYPE)                                                            \
    for (at = 0; at + sizeof(TYPE) <= n; at += sizeof(TYPE)) {                \
        TYPE word;                                                            \
        memcpy(&word, bytes + at, sizeof word);                               \
        if (word < least) least = word;                                       \
        if (word > most) most = word;                                         \
    }
    if (parameter->bytes == 1) LOOK(uint8_t)
    else if (parameter->bytes == 2) LOOK(uint16_t)
    else if (parameter->is_unsigned) LOOK(uint32_t)
    else LOOK(int32_t)
    if (least <= most) *contents = (struct contents){least, most, true};
}

/* What is read of a launch. */
struct reading {
    cl_context context;
    cl_mem memories[ARGUMENTS_MOST];
    uint64_t spoken; /* a bit for each argument of which conditions speak */
    bool all;        /* also integers that the kernel only loads */
    bool is_late, is_long;
};

/* The lock is not held. */
static void read_each(struct subject *subject, struct launch *launch, const struct call *call, struct reading *reading) {
    cl_device_id device;
    bool is_ordered = false;
    unsigned at;
    if (below.clGetCommandQueueInfo(call->queue, CL_QUEUE_DEVICE, sizeof device, &device, NULL) ||
        !parameters_learn(subject, reading->context, device) || subject->parameters_n != launch->arguments_n)
        return;
    for (at = 0; at < launch->arguments_n && !reading->is_late; at++) {
        const struct parameter *parameter = &subject->parameters[at];
        size_t n = launch->arguments[at].bytes;
        bool is_wanted = reading->spoken >> at & 1 || (reading->all && parameter->is_const && !parameter->is_float);
        unsigned char *bytes = NULL;
        if (launch->arguments[at].kind != KV_BUFFER || parameter->is_guess || !is_wanted || launch->contents[at].is_read) continue;
        reading->is_long |= n > READ_MOST;
        is_ordered = is_ordered || is_in_order(call);
        if (is_ordered && n <= READ_MOST) bytes = bytes_of(call, reading->memories[at], n, &reading->is_late);
        if (bytes) contents_of(parameter, bytes, n, &launch->contents[at]);
        free(bytes);
        launch->has_contents |= launch->contents[at].is_read;
    }
}

/* First what is spoken of is read, by conditions of a file or by those that were shown. */
void contents_read(struct subject *subject, struct launch *launch, const struct kernel *kernel, const struct call *call) {
    struct reading reading = {.context = kernel->context};
    struct answer unused;
    const struct shown *shown = subject->shown;
    bool is_given = subject_is_given(subject), may_all = !is_given && subject->refused_n < REFUSED_MOST;
    unsigned at;
    if (subject->is_late || subject->is_unread) return;
    if (is_given && !settings.held) reading.spoken = spoken_of(words_of(&subject->given), launch);
    for (; shown && !is_given; shown = shown->next)
        if (shown->has_values) reading.spoken |= spoken_of(shown->conditions, launch);
    for (at = 0; at < launch->arguments_n; at++) reading.memories[at] = kernel->arguments[at].memory;
    if (reading.spoken) UNLOCKED(read_each(subject, launch, call, &reading));
    reading.all = may_all && !(reading.spoken && subject_allows(subject, launch, false, &unused));
    if (reading.all) UNLOCKED(read_each(subject, launch, call, &reading));
    if (reading.is_long && !subject->is_long) policy_tell("%s: a buffer of over 64 MiB is not read", subject->name);
    if (reading.is_late) policy_tell("%s: its buffers are not read any more: its queue took too long", subject->name);
    subject->is_long |= reading.is_long;
    subject->is_late |= reading.is_late;
}

/* Has what a line `values` says as a line `require`, by what the buffer holds. */
static bool require(const char *conditions, const char *line, const struct launch *launch, struct text *required, struct answer *answer) {
    const char *name = line + 7, *sign = name + strcspn(name, " \n"), *sum = sign + 4;
    int at = conditions_buffer(conditions, launch, 0, name, (size_t)(sign - name)), n;
    bool is_upper = !strncmp(sign, " <= ", 4);
    if (at < 0 || (!is_upper && strncmp(sign, " >= ", 4))) return answer_is(answer, NOT_SHOWN, "a line `values` that is not understood");
    if (launch->arguments[at].bytes > READ_MOST) return answer_is(answer, NOT_SHOWN, "argument %d has over 64 MiB, and is not read", at);
    if (!launch->contents[at].is_read) return answer_is(answer, NOT_SHOWN, "it was not read what argument %d holds", at);
    n = (int)strcspn(sum, "\n");
    if (is_upper) text_add(required, "require %.*s >= %" PRId64 "\n", n, sum, launch->contents[at].most);
    else text_add(required, "require %" PRId64 " >= %.*s\n", launch->contents[at].least, n, sum);
    return true;
}

/* The library reckons the sums: it is asked of conditions that have a line `require` in the place of each line `values`. */
bool contents_hold(const struct subject *subject, const char *conditions, const struct launch *launch, struct answer *answer) {
    const struct source *source = subject->source;
    struct text required = {0};
    kv_answer told = {KV_MEMORY, 0, 0};
    const char *line = conditions;
    bool is_told = true;
    while (line && strncmp(line, "require ", 8) && strncmp(line, "values ", 7)) line = next_line(line);
    if (line) text_add_bytes(&required, conditions, (size_t)(line - conditions));
    for (; line && is_told; line = next_line(line))
        if (!strncmp(line, "values ", 7)) is_told = require(conditions, line, launch, &required, answer);
    text_add(&required, "budget 1\n");
    if (is_told && !required.is_short)
        kv_meets(source->bytes, source->n, required.bytes, required.n, 0, &launch->range, launch->arguments, launch->arguments_n, &told);
    text_free(&required);
    if (is_told && told.number == KV_UNMET) return answer_is(answer, NOT_SHOWN, "its buffers do not hold what `values` lines say");
    if (is_told && told.number) return answer_is(answer, NOT_SHOWN, WANT_OF_MEMORY);
    return is_told;
}
