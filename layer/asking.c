/* asking.c: the thread that asks.
 *
 * A launch of which no certificate is known is a question. One thread takes the questions in their order: it writes conditions, has
 * `prove` look for a certificate, checks what it found, and asks whether the launch is allowed. Launches wait for it only where the policy
 * wants that. */
#include "layer.h"
#include <signal.h>

/* How many questions of one kernel are asked at once. How many certificates of one are kept. How many launches may have no draft. */
#define WAITING_MOST 64
#define SHOWN_MOST 64
#define APART_MOST 4
#define STACK (8u << 20)
#define AT_END "no answer before the program ended"

static pthread_cond_t arrived = PTHREAD_COND_INITIALIZER, answered = PTHREAD_COND_INITIALIZER;
static struct question *first;
static struct question **end = &first;
static pthread_t thread;
static bool has_thread, is_ending;
static double ends_at;

/* What a number of kverify says: that the kernel's text is not read, or something else. */
static void say_number(struct answer *answer, const kv_answer *told) {
    static const struct {
        uint32_t number;
        const char *format;
    } formats[] = {{KV_SHARED, "refused %u: argument %" PRIu64 " is memory that an earlier one has"},
                   {KV_ARGUMENTS, "refused %u: argument %" PRIu64 " is no such buffer or value"},
                   {KV_UNSAID, "refused %u: nobody says that `values` lines hold (KVERIFY_READ=1, KVERIFY_HELD=1)"},
                   {KV_MEMORY, WANT_OF_MEMORY}};
    const char *format = told->column ? "refused %u, at %" PRIu64 ":%u" : "refused %u, at %" PRIu64;
    unsigned at;
    for (at = 0; at < sizeof formats / sizeof *formats; at++)
        if (told->number == formats[at].number) format = formats[at].format;
    answer->verdict = told->number < 30 ? NOT_READ : NOT_SHOWN;
    snprintf(answer->words, sizeof answer->words, format, told->number, told->place, told->column);
}

/* What `prove` said, in one line: its refusal and its first finding. */
static void say_output(struct answer *answer, const struct text *output) {
    const char *text = words_of(output);
    int n = (int)strcspn(text, "\n"), finding_n = text[n] ? (int)strcspn(text + n + 1, "\n") : 0;
    if (strncmp(text, "refused ", 8)) answer_is(answer, NOT_SHOWN, "prove gave no answer");
    else answer_is(answer, NOT_SHOWN, "%.*s%s%.*s", n < 40 ? n : 40, text, finding_n ? ": " : "", finding_n < 120 ? finding_n : 120,
                   finding_n ? text + n + 1 : "");
}

struct shown *asking_keep(struct subject *subject, const struct text *conditions, const struct text *certificate, kv_answer *answer) {
    const struct source *source = subject->source;
    struct shown *shown = calloc(1, sizeof *shown + conditions->n + 1);
    *answer = (kv_answer){KV_MEMORY, 0, 0};
    if (!shown || conditions->is_short || certificate->is_short ||
        kv_open(source->bytes, source->n, conditions->bytes, conditions->n, words_of(certificate), certificate->n, 0, &shown->handle,
                answer)) {
        free(shown);
        return NULL;
    }
    memcpy(shown->conditions, conditions->bytes, conditions->n);
    shown->has_values = strstr(shown->conditions, "\nvalues ") != NULL;
    LOCKED(shown->next = subject->shown; subject->shown = shown; subject->shown_n++);
    return shown;
}

/* When an answer has to be there. */
static double deadline_now(bool *is_at_end) {
    double deadline = seconds_now() + settings.seconds;
    pthread_mutex_lock(&lock);
    *is_at_end = is_ending && ends_at < deadline;
    if (*is_at_end) deadline = ends_at;
    pthread_mutex_unlock(&lock);
    return deadline;
}

static bool is_known(const struct question *question, bool by_any, struct answer *answer) {
    bool known;
    LOCKED(known = subject_allows(question->subject, &question->launch, by_any, answer));
    return known;
}

/* A certificate under these conditions that answers for the launch, or NULL. */
static struct shown *proved(const struct question *question, const struct text *conditions, struct answer *answer) {
    struct subject *subject = question->subject;
    struct text output = {0}, certificate = {0};
    struct shown *shown = NULL;
    kv_answer told;
    bool is_at_end;
    double deadline = deadline_now(&is_at_end);
    enum ending ending = NOT_STARTED;
    if (!conditions->is_short) ending = process_run("prove", subject->source, conditions, &output, &certificate, deadline);
    if (conditions->is_short) answer_is(answer, NOT_SHOWN, WANT_OF_MEMORY);
    else if (ending == NOT_STARTED) answer_is(answer, NOT_SHOWN, "kverify could not be run (KVERIFY_PROGRAM)");
    else if (ending == TOO_LONG) answer_is(answer, NOT_SHOWN, is_at_end ? AT_END : "prove took too long");
    else if (strncmp(words_of(&output), "accepted\n", 9)) say_output(answer, &output);
    else if (!(shown = asking_keep(subject, conditions, &certificate, &told))) say_number(answer, &told);
    if (shown) {
        bool is_allowed;
        kept_save(subject, conditions, &certificate);
        answer_is(answer, NOT_SHOWN, "outside the conditions that were shown");
        LOCKED(is_allowed = subject_admits(subject, shown, &question->launch, answer));
        if (!is_allowed) shown = NULL;
    }
    text_free(&output);
    text_free(&certificate);
    return shown;
}

/* Conditions that a file has for this kernel. */
static void ask_given(const struct question *question, struct answer *answer) {
    const struct launch *launch = &question->launch;
    const struct subject *subject = question->subject;
    const struct source *source = subject->source;
    const struct text *given = &subject->given;
    kv_answer told;
    uint32_t number;
    answer_is(answer, NOT_SHOWN, "its conditions are for another kernel, or for other options, or cannot be read");
    if (given->is_short || !conditions_fit(subject, given)) return;
    number = kv_meets(source->bytes, source->n, given->bytes, given->n, settings.held, &launch->range, launch->arguments,
                      launch->arguments_n, &told);
    if (number && (number != KV_UNSAID || !settings.reads)) say_number(answer, &told);
    else if (!number || contents_hold(subject, given->bytes, launch, answer)) proved(question, given, answer);
}

/* A certificate of conditions that all launches of a hull meet; NULL also where there is nothing to say of what buffers hold. */
static struct shown *written(const struct question *question, const struct hull *hull, struct manner manner, struct text *conditions,
                             struct answer *answer) {
    conditions_write(question->subject, hull, manner, conditions);
    if (manner.values && !strstr(words_of(conditions), "\nvalues ")) return NULL;
    return proved(question, conditions, answer);
}

/* The same for all launches that the draft covers, and this one: it is the draft then. Meanwhile that may have come to cover more of them;
 * what is shown has to be what would be written then. */
static bool is_joined(const struct question *question, struct hull *hull, struct manner manner, struct text *conditions,
                      struct answer *answer) {
    struct subject *subject = question->subject;
    struct text again = {0};
    struct shown *shown = NULL;
    bool is_same;
    LOCKED(*hull = *subject->draft);
    if (hull_join(subject, hull, &question->launch)) shown = written(question, hull, manner, conditions, answer);
    if (!shown) return false;
    pthread_mutex_lock(&lock);
    *hull = *subject->draft;
    is_same = !subject->has_no_draft && hull_join(subject, hull, &question->launch);
    if (is_same) conditions_write(subject, hull, manner, &again);
    is_same = is_same && !again.is_short && !strcmp(words_of(&again), conditions->bytes);
    if (is_same) *subject->draft = *hull;
    if (is_same) subject_draft(subject, shown);
    pthread_mutex_unlock(&lock);
    text_free(&again);
    return is_same;
}

/* Whether the draft is what is to be shown. */
static bool is_drafted(struct subject *subject) {
    bool is_so;
    LOCKED(is_so = subject->drafted && !subject->has_no_draft);
    return is_so;
}

static bool is_asked(const struct question *question, struct hull *hull, struct manner manner, bool is_joint, struct text *conditions,
                     struct answer *answer) {
    if (is_joint) return is_joined(question, hull, manner, conditions, answer);
    return written(question, hull, manner, conditions, answer) != NULL;
}

/* Asks of one conditions after the other. Where lines `values` helped, those go that are not needed. */
static bool ask_each(const struct question *question, struct hull *hull, bool is_joint, struct text *conditions, struct answer *answer) {
    struct manner manner = {GENERAL, 0};
    unsigned at, one;
    bool is_shown = false;
    for (at = 0; at < 4 && !is_shown; at++) {
        manner = (struct manner){at % 2 ? EXACT : GENERAL, at < 2 ? 0 : UINT64_MAX};
        is_shown = is_asked(question, hull, manner, is_joint, conditions, answer);
    }
    for (one = 0; is_shown && manner.values && one < question->launch.arguments_n; one++) {
        struct manner less = {manner.breadth, manner.values & ~((uint64_t)1 << one)};
        struct answer unused;
        if (!question->launch.contents[one].is_read) continue;
        if (is_asked(question, hull, less, is_drafted(question->subject), conditions, &unused)) manner = less;
    }
    return is_shown;
}

/* Conditions that are written of the launch, or of it and those that the draft covers. */
static void ask_written(const struct question *question, struct text *conditions, struct answer *answer) {
    static struct hull hull;
    struct subject *subject = question->subject;
    kv_answer told = {0};
    bool is_joint;
    answer_is(answer, NOT_SHOWN, "OpenCL tells another number of parameters");
    if (subject->parameters_n != question->launch.arguments_n) return;
    if (conditions_try(subject, &question->launch, &hull, conditions, &told)) {
        say_number(answer, &told);
        return;
    }
    LOCKED(subject->is_settled = true);
    is_joint = is_drafted(subject);
    if (is_known(question, false, answer) || (is_joint && ask_each(question, &hull, true, conditions, answer))) return;
    if (is_joint) conditions_try(subject, &question->launch, &hull, conditions, &told);
    if (!(is_joint && is_known(question, true, answer)) && !ask_each(question, &hull, false, conditions, answer)) return;
    if (!is_joint) return;
    LOCKED(subject->has_no_draft |= ++subject->apart_n >= APART_MOST);
    policy_tell("%s: its draft does not cover all launches that were shown", subject->name);
}

/* Whether kverify reads the kernel's text at all; where not, no launch of it is asked again. */
static bool is_read(const struct question *question, struct answer *answer) {
    const struct source *source = question->subject->source;
    struct text conditions = {0};
    kv_answer told = {KV_MEMORY, 0, 0};
    conditions_head(question->subject, &question->launch, &conditions);
    if (!conditions.is_short)
        kv_meets(source->bytes, source->n, conditions.bytes, conditions.n, 0, &question->launch.range, question->launch.arguments,
                 question->launch.arguments_n, &told);
    text_free(&conditions);
    if (told.number >= 30) return true;
    say_number(answer, &told);
    /* (12 may be for want of room for this size of a work-group) */
    LOCKED(question->subject->is_unread = told.number != 12; question->subject->unread = *answer);
    return false;
}

static void ask_new(const struct question *question, struct text *conditions, struct answer *answer) {
    struct subject *subject = question->subject;
    bool is_given = subject_is_given(subject);
    kept_load(subject);
    if (is_known(question, false, answer) || !is_read(question, answer)) return;
    answer_is(answer, NOT_SHOWN, "OpenCL does not tell its parameters");
    if ((!is_given || question->launch.read_only) && !parameters_learn(subject, question->context, question->device)) return;
    /* (now it is known which buffers are only read) */
    if (is_known(question, false, answer)) return;
    if (is_given) ask_given(question, answer);
    else ask_written(question, conditions, answer);
}

/* Asks, and leaves the conditions that were asked last. */
static void ask(const struct question *question, struct text *conditions, struct answer *answer) {
    const struct text *given = &question->subject->given;
    ask_new(question, conditions, answer);
    if (subject_is_given(question->subject)) text_add_bytes(conditions, words_of(given), given->n);
    below.clReleaseContext(question->context);
}

/* Takes the first question; the lock is held, and is let go in between. */
static void take(void) {
    struct question *question = first;
    struct subject *subject = question->subject;
    struct text conditions = {0};
    struct answer answer;
    double began = seconds_now();
    bool is_late = is_ending && began > ends_at;
    first = question->next_waiting;
    if (!first) end = &first;
    answer_is(&answer, NOT_SHOWN, AT_END);
    UNLOCKED(if (is_late) below.clReleaseContext(question->context); else ask(question, &conditions, &answer));
    question->answer = answer;
    subject->waiting_n--;
    subject->milliseconds += (seconds_now() - began) * 1000;
    if (answer.verdict != ACCEPTED) subject->refused_n++;
    subject_count(subject, &answer, question->launches);
    question->launches = 0;
    pthread_cond_broadcast(&answered);
    /* (nobody waits for the log) */
    UNLOCKED(if (!is_late && answer.verdict != ACCEPTED) kept_log(subject, &conditions, &answer); text_free(&conditions));
}

static void *work(void *unused) {
    (void)unused;
    pthread_mutex_lock(&lock);
    while (first || !is_ending) {
        if (first) {
            take();
            continue;
        }
        UNLOCKED(parameters_forget());
        if (!first && !is_ending) pthread_cond_wait(&arrived, &lock);
    }
    pthread_mutex_unlock(&lock);
    parameters_forget();
    return NULL;
}

/* Starts the thread, which takes no signal of the program; the lock is held. */
static bool start(void) {
    pthread_attr_t attributes;
    sigset_t all, old;
    if (has_thread || is_ending) return has_thread;
    if (pthread_attr_init(&attributes)) return false;
    sigfillset(&all);
    pthread_attr_setstacksize(&attributes, STACK);
    pthread_sigmask(SIG_BLOCK, &all, &old);
    has_thread = !pthread_create(&thread, &attributes, work, NULL);
    pthread_sigmask(SIG_SETMASK, &old, NULL);
    pthread_attr_destroy(&attributes);
    return has_thread;
}

void asking_end(void) {
    bool is_there;
    pthread_mutex_lock(&lock);
    is_there = has_thread && !is_ending;
    if (first) policy_tell("the program has ended; answers are waited for, %g s at most", settings.seconds);
    ends_at = seconds_now() + settings.seconds;
    is_ending = true;
    pthread_cond_broadcast(&arrived);
    pthread_mutex_unlock(&lock);
    if (is_there) pthread_join(thread, NULL);
}

/* A new question, or NULL where there is none to ask; the lock is held. The context is the question's own reference. */
static struct question *question_new(struct subject *subject, cl_context context, cl_device_id device, const struct launch *launch,
                                     struct answer *answer) {
    struct question *question;
    answer_is(answer, NOT_SHOWN, "not asked: too many launches of it were not shown, or wait");
    if (subject->refused_n >= REFUSED_MOST || subject->waiting_n >= WAITING_MOST || subject->shown_n >= SHOWN_MOST) return NULL;
    answer_is(answer, NOT_SHOWN, WANT_OF_MEMORY ", or the program has ended");
    question = start() ? calloc(1, sizeof *question) : NULL;
    if (!question) return NULL;
    question->subject = subject;
    question->launch = *launch;
    question->context = context;
    question->device = device;
    question->answer.verdict = PENDING;
    question->next = subject->questions;
    subject->questions = question;
    subject->waiting_n++;
    *end = question;
    end = &question->next_waiting;
    pthread_cond_signal(&arrived);
    return question;
}

static struct question *question_find(const struct subject *subject, const struct launch *launch) {
    struct question *question = subject->questions;
    while (question && !launch_is_same(&question->launch, launch)) question = question->next;
    return question;
}

/* Asks what was not asked before. OpenCL is called, so the lock is let go in between. */
static struct question *question_ask(struct subject *subject, cl_context context, const struct launch *launch, cl_command_queue queue,
                                     struct answer *answer) {
    cl_device_id device = NULL;
    struct question *question = NULL;
    bool is_mine = false;
    UNLOCKED(if (below.clGetCommandQueueInfo(queue, CL_QUEUE_DEVICE, sizeof device, &device, NULL) || below.clRetainContext(context))
                 context = NULL);
    answer_is(answer, NOT_SHOWN, "OpenCL does not tell its queue's device");
    if (context) question = question_find(subject, launch);
    if (context && !question) is_mine = (question = question_new(subject, context, device, launch, answer)) != NULL;
    if (context && !is_mine) UNLOCKED(below.clReleaseContext(context));
    return question;
}

void asking_of(struct subject *subject, cl_context context, const struct launch *launch, cl_command_queue queue, bool waits,
               struct answer *answer) {
    struct question *question;
    if (subject_allows(subject, launch, false, answer)) return;
    if (subject->is_unread) *answer = subject->unread;
    if (subject->is_unread) return;
    question = question_find(subject, launch);
    if (!question) question = question_ask(subject, context, launch, queue, answer);
    if (!question) return;
    while (waits && question->answer.verdict == PENDING) pthread_cond_wait(&answered, &lock);
    *answer = question->answer;
    if (answer->verdict == PENDING) question->launches++;
}
