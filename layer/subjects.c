/* subjects.c: kernels, by what they are made of.
 *
 * Programs make the same kernel often, of the same text. What is known of it belongs to its text, its name and the options of its build,
 * and stays until the program ends. */
#include "layer.h"

#define SUBJECTS_MOST 16384u
/* How many launches of a kernel are remembered. */
#define SEEN_MOST 16u
/* How many bytes of texts are kept. */
#define SOURCES_MOST 268435456u

static struct source no_source;
/* Launches of kernels that are not kept: other calls made them, or memory ran out. */
struct subject strangers = {.name = (char *)"(a kernel that the layer has not seen made)", .source = &no_source, .defines = (char *)"",
                            .why = (char *)""};
struct subject *subjects = &strangers;
static struct source *sources;
static size_t subjects_n, sources_bytes;

struct source *source_of(const char *bytes, size_t n) {
    uint64_t sum = text_sum(0, bytes, n);
    struct source *source;
    for (source = sources; source; source = source->next)
        if (source->sum == sum && source->n == n && !memcmp(source->bytes, bytes, n)) return source;
    if (sources_bytes + n > SOURCES_MOST) return NULL;
    source = malloc(sizeof *source);
    if (!source || !(source->bytes = malloc(n + 1))) {
        free(source);
        return NULL;
    }
    memcpy(source->bytes, bytes, n);
    source->bytes[n] = 0;
    source->n = n;
    source->sum = sum;
    source->next = sources;
    sources_bytes += n;
    return sources = source;
}

static bool is_same(const struct subject *subject, const struct source *source, const char *name, const char *defines, const char *why) {
    return subject->source == source && !strcmp(subject->name, name) && !strcmp(subject->defines, defines) &&
           !strcmp(subject->why, why);
}

/* Puts a copy of a word at a place, and gives the place behind it. */
static char *put(char *place, const char *word, char **copy) {
    *copy = strcpy(place, word);
    return place + strlen(word) + 1;
}

struct subject *subject_of(struct source *source, const char *name, const char *defines, const char *options, const char *why) {
    size_t n = strlen(name) + strlen(defines) + strlen(options) + strlen(why) + 4;
    struct subject *subject;
    char *place;
    for (subject = subjects; subject; subject = subject->next)
        if (is_same(subject, source, name, defines, why)) return subject;
    subject = subjects_n < SUBJECTS_MOST ? calloc(1, sizeof *subject + n) : NULL;
    if (!subject) return NULL;
    place = put((char *)(subject + 1), name, &subject->name);
    put(put(put(place, defines, &subject->defines), options, &subject->options), why, &subject->why);
    subject->source = source;
    kept_conditions(subject);
    subject->next = subjects;
    subjects_n++;
    return subjects = subject;
}

static const char *const verdicts[] = {"accepted", "not shown", "not read", "not answered"};

void subject_count(struct subject *subject, const struct answer *answer, uint64_t launches) {
    struct outcome *outcome;
    for (outcome = subject->outcomes; outcome; outcome = outcome->next)
        if (outcome->verdict == answer->verdict && !strcmp(outcome->words, answer->words)) break;
    if (!outcome) {
        bool has_words = answer->words[0];
        policy_tell("%s: %s%s%s", subject->name, verdicts[answer->verdict], has_words ? ": " : "", answer->words);
        outcome = calloc(1, sizeof *outcome);
        if (!outcome) return;
        outcome->verdict = answer->verdict;
        memcpy(outcome->words, answer->words, sizeof outcome->words);
        outcome->next = subject->outcomes;
        subject->outcomes = outcome;
    }
    outcome->launches += launches;
}

bool subject_is_given(const struct subject *subject) {
    return subject->given.n || subject->given.is_short;
}

/* A kernel may store to a buffer whose parameter is not `const`; one that kernels only read is not for that. */
static bool keeps_read_only(const struct subject *subject, const struct launch *launch, struct answer *answer) {
    uint32_t at;
    for (at = 0; at < launch->arguments_n; at++) {
        if (!(launch->read_only >> at & 1) || (at < subject->parameters_n && subject->parameters[at].is_const)) continue;
        return answer_is(answer, NOT_SHOWN, "the buffer of argument %u is read-only, and its parameter is not const", at);
    }
    return true;
}

/* Whether the launch is one of those that were allowed last: what the library answers of it is the same again. */
static bool was_seen(const struct subject *subject, const struct launch *launch) {
    unsigned at;
    for (at = 0; at < subject->seen_n; at++)
        if (launch_is_same(&subject->seen[at], launch)) return true;
    return false;
}

static void remember(struct subject *subject, const struct launch *launch) {
    if (!subject->seen) subject->seen = calloc(SEEN_MOST, sizeof *subject->seen);
    if (!subject->seen) return;
    subject->seen[subject->seen_next] = *launch;
    subject->seen_next = (subject->seen_next + 1) % SEEN_MOST;
    if (subject->seen_n < SEEN_MOST) subject->seen_n++;
}

/* ---- drafts (KVERIFY_DRAFT) ---- */

static bool has_draft(const struct subject *subject) {
    return settings.draft && !subject->has_no_draft && !subject_is_given(subject);
}

void subject_draft(struct subject *subject, struct shown *shown) {
    subject->drafted = shown;
    if (!kept_draft(subject)) policy_tell("%s: its draft could not be written", subject->name);
}

/* Has the draft cover a launch that its certificate allows. The first certificate is that of the draft. */
static void draft(struct subject *subject, struct shown *shown, const struct launch *launch) {
    const struct subject *other = subjects;
    if (!has_draft(subject) || (subject->drafted && subject->drafted != shown)) return;
    while (other && (other == subject || !other->drafted || strcmp(other->name, subject->name))) other = other->next;
    if (!other && !subject->draft) subject->draft = calloc(1, sizeof *subject->draft);
    subject->has_no_draft = other || !subject->draft || !hull_join(subject, subject->draft, launch);
    if (subject->has_no_draft)
        policy_tell("%s: no draft: %s", subject->name, other ? "another kernel of this name has one" : WANT_OF_MEMORY);
    else if (!subject->drafted) subject_draft(subject, shown);
}

static bool accepted(struct answer *answer) {
    answer->verdict = ACCEPTED;
    answer->words[0] = 0;
    return true;
}

bool subject_admits(struct subject *subject, struct shown *shown, const struct launch *launch, struct answer *answer) {
    /* (who answers for what buffers hold means the lines of a file) */
    uint32_t held = subject_is_given(subject) ? settings.held : 0, number;
    kv_answer told;
    if (shown->has_values && !held && !launch->has_contents) return false;
    number = kv_allows(shown->handle, held, &launch->range, launch->arguments, launch->arguments_n, &told);
    if (number && (number != KV_UNSAID || !contents_hold(subject, shown->conditions, launch, answer))) return false;
    remember(subject, launch);
    draft(subject, shown, launch);
    return accepted(answer);
}

bool subject_allows(struct subject *subject, const struct launch *launch, bool by_any, struct answer *answer) {
    struct shown **link, *shown;
    bool is_drafted = has_draft(subject);
    if ((launch->read_only && !subject->has_parameters) || (is_drafted && !subject->is_settled)) return false;
    if (!keeps_read_only(subject, launch, answer)) return true;
    if (was_seen(subject, launch)) return accepted(answer);
    for (link = &subject->shown; (shown = *link) != NULL; link = &shown->next) {
        if (is_drafted && subject->drafted && subject->drafted != shown && !by_any) continue;
        if (!subject_admits(subject, shown, launch, answer)) continue;
        /* (what was used last comes first) */
        *link = shown->next;
        shown->next = subject->shown;
        subject->shown = shown;
        return true;
    }
    return false;
}
