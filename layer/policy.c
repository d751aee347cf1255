/* policy.c: what is done with an answer, and what is told. */
#include "layer.h"
#include <stdarg.h>
#include <sys/stat.h>
#include <unistd.h>

struct settings settings;
/* How many launches were refused, and the time that all launches took here. */
static uint64_t refused_n;
static double launch_seconds;
static pid_t process;

double seconds_now(void) {
    struct timespec now;
    clock_gettime(CLOCK_MONOTONIC, &now);
    return (double)now.tv_sec + (double)now.tv_nsec * 1e-9;
}

void policy_tell(const char *format, ...) {
    char line[512] = "kverify: ";
    va_list words;
    int n;
    va_start(words, format);
    n = vsnprintf(line + 9, sizeof line - 10, format, words);
    va_end(words);
    if (n < 0) return;
    n = n > (int)sizeof line - 11 ? (int)sizeof line - 2 : n + 9;
    line[n] = '\n';
    if (write(2, line, (size_t)n + 1) < 0) return;
}

static const char *word_of(const char *name) {
    const char *value = getenv(name);
    return value && *value ? value : NULL;
}

void policy_begin(void) {
    const char *policy = word_of("KVERIFY_POLICY"), *seconds = word_of("KVERIFY_SECONDS"), *held = word_of("KVERIFY_HELD");
    const char *reads = word_of("KVERIFY_READ");
    process = getpid();
    settings.policy = REPORT;
    if (policy && !strcmp(policy, "refuse")) settings.policy = REFUSE;
    else if (policy && !strcmp(policy, "require")) settings.policy = REQUIRE;
    else if (policy && strcmp(policy, "report")) {
        policy_tell("KVERIFY_POLICY is report, refuse or require; this is taken as require: %s", policy);
        settings.policy = REQUIRE;
    }
    settings.program = word_of("KVERIFY_PROGRAM") ? word_of("KVERIFY_PROGRAM") : "kverify";
    settings.conditions = word_of("KVERIFY_CONDITIONS");
    settings.cache = word_of("KVERIFY_CACHE");
    settings.log = word_of("KVERIFY_LOG");
    settings.draft = word_of("KVERIFY_DRAFT");
    if (settings.draft) mkdir(settings.draft, 0777);
    if (settings.cache) mkdir(settings.cache, 0777);
    if (settings.log) mkdir(settings.log, 0777);
    settings.seconds = seconds && atof(seconds) > 0 && atof(seconds) < 1e6 ? atof(seconds) : 10;
    settings.held = held && !strcmp(held, "1") ? KV_HELD : 0;
    settings.reads = reads && !strcmp(reads, "1");
}

/* ---- the table ---- */

static void table_line(const struct subject *subject) {
    uint64_t launches = 0, accepted = 0;
    const struct outcome *outcome;
    for (outcome = subject->outcomes; outcome; outcome = outcome->next) {
        launches += outcome->launches;
        if (outcome->verdict == ACCEPTED) accepted += outcome->launches;
    }
    if (!launches) return;
    policy_tell("  %s: %" PRIu64 " of %" PRIu64 " accepted, %.0f ms", subject->name, accepted, launches, subject->milliseconds);
    for (outcome = subject->outcomes; outcome; outcome = outcome->next)
        if (outcome->verdict != ACCEPTED && outcome->launches)
            policy_tell("    %" PRIu64 " not %s: %s", outcome->launches, outcome->verdict == NOT_READ ? "read" : "shown", outcome->words);
}

static void table(void) {
    uint64_t counts[PENDING + 1] = {0};
    double milliseconds = 0;
    const struct subject *subject;
    const struct outcome *outcome;
    if (getpid() != process) return;
    asking_end();
    pthread_mutex_lock(&lock);
    for (subject = subjects; subject; subject = subject->next) {
        milliseconds += subject->milliseconds;
        for (outcome = subject->outcomes; outcome; outcome = outcome->next) counts[outcome->verdict] += outcome->launches;
    }
    policy_tell("%" PRIu64 " launches: %" PRIu64 " accepted, %" PRIu64 " not shown, %" PRIu64 " not read; %" PRIu64 " refused; "
                "%.0f ms to ask, %.1f ms in launches",
                counts[ACCEPTED] + counts[NOT_SHOWN] + counts[NOT_READ], counts[ACCEPTED], counts[NOT_SHOWN], counts[NOT_READ], refused_n,
                milliseconds, launch_seconds * 1000);
    for (subject = subjects; subject; subject = subject->next) table_line(subject);
    pthread_mutex_unlock(&lock);
}

static void table_once(void) {
    atexit(table);
}

/* This is done when the first kernel is made: what OpenCL itself does at the end was arranged before, and comes later. */
void policy_table_at_end(void) {
    static pthread_once_t once = PTHREAD_ONCE_INIT;
    pthread_once(&once, table_once);
}

/* ---- a launch ---- */

static bool goes_on(const struct answer *answer) {
    if (settings.policy == REPORT || answer->verdict == ACCEPTED) return true;
    return settings.policy == REFUSE && answer->verdict == NOT_READ;
}

static void answer_of(const struct kernel *kernel, const struct call *call, struct answer *answer) {
    struct launch launch;
    struct subject *subject = kernel->subject;
    cl_context context = kernel->context;
    if (subject->why[0]) {
        answer_is(answer, strcmp(subject->why, WANT_OF_MEMORY) ? NOT_READ : NOT_SHOWN, "%s", subject->why);
    } else if (launch_make(&launch, kernel, call, answer)) {
        if (settings.reads && !subject_allows(subject, &launch, false, answer)) contents_read(subject, &launch, kernel, call);
        asking_of(subject, context, &launch, call->queue, settings.policy != REPORT, answer);
    }
    if (answer->verdict != PENDING) subject_count(subject, answer, 1);
}

bool policy_allows(const struct call *call) {
    struct answer answer = {NOT_SHOWN, ""};
    const struct kernel *kernel;
    double began = seconds_now();
    bool is_allowed = true;
    pthread_mutex_lock(&lock);
    kernel = (const struct kernel *)object_find(call->kernel, OBJECT_KERNEL);
    if (!kernel || !launch_is_faulty(kernel, call)) {
        if (kernel) answer_of(kernel, call, &answer);
        else subject_count(&strangers, &answer, 1);
        is_allowed = goes_on(&answer);
        refused_n += !is_allowed;
        launch_seconds += seconds_now() - began;
    }
    pthread_mutex_unlock(&lock);
    return is_allowed;
}
