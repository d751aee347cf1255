/* kept.c: what lies in folders. KVERIFY_CACHE has certificates, KVERIFY_CONDITIONS conditions by hand, KVERIFY_DRAFT conditions that were
 * shown, and KVERIFY_LOG what was not shown.
 *
 * Nobody need trust a cache: each certificate is checked again when it is read, against the text that the program handed over. */
#include "layer.h"
#include <unistd.h>

#define PATH_MOST 4096
#define KEPT_MOST 64
#define LOGGED_MOST 32

/* A file of the cache: the kernel's name, a sum of its text and options, and a number. */
static bool cache_path(const struct subject *subject, unsigned number, const char *kind, char *path) {
    uint64_t sum = text_sum(subject->source->sum, subject->defines, strlen(subject->defines));
    sum = text_sum(sum, subject->name, strlen(subject->name));
    return snprintf(path, PATH_MOST, "%s/%.64s-%016llx-%u.%s", settings.cache, subject->name, (unsigned long long)sum, number, kind) <
           PATH_MOST;
}

static bool named_path(const char *folder, const struct subject *subject, char *path) {
    return snprintf(path, PATH_MOST, "%s/%s.conditions", folder, subject->name) < PATH_MOST;
}

/* Where a file says which launches are allowed, no other conditions count. */
static bool is_allowed(const struct subject *subject, const struct text *conditions) {
    const struct text *given = &subject->given;
    bool is_same = given->n == conditions->n && !memcmp(words_of(given), words_of(conditions), given->n);
    return conditions_fit(subject, conditions) && (!subject_is_given(subject) || is_same);
}

static bool load(struct subject *subject, unsigned number) {
    struct text conditions = {0}, certificate = {0};
    char path[PATH_MOST];
    kv_answer told;
    bool is_there = cache_path(subject, number, "conditions", path) && text_read(&conditions, path);
    if (is_there && is_allowed(subject, &conditions) && cache_path(subject, number, "certificate", path) &&
        text_read(&certificate, path) && !asking_keep(subject, &conditions, &certificate, &told))
        policy_tell("%s: a certificate of the cache is not taken: refused %u", subject->name, told.number);
    text_free(&conditions);
    text_free(&certificate);
    return is_there;
}

void kept_load(struct subject *subject) {
    if (!settings.cache || subject->was_loaded) return;
    subject->was_loaded = true;
    while (subject->kept_n < KEPT_MOST && load(subject, subject->kept_n)) subject->kept_n++;
}

void kept_save(struct subject *subject, const struct text *conditions, const struct text *certificate) {
    char path[PATH_MOST];
    if (!settings.cache || subject->kept_n >= KEPT_MOST) return;
    if (cache_path(subject, subject->kept_n, "certificate", path) && text_write(certificate->bytes, certificate->n, path) &&
        cache_path(subject, subject->kept_n, "conditions", path) && text_write(conditions->bytes, conditions->n, path))
        subject->kept_n++;
}

/* A file that is there and cannot be read is no reason to go by other conditions. */
void kept_conditions(struct subject *subject) {
    char path[PATH_MOST];
    if (!settings.conditions || !named_path(settings.conditions, subject, path)) return;
    if (!access(path, F_OK) && !text_read(&subject->given, path)) subject->given.is_short = true;
}

bool kept_draft(const struct subject *subject) {
    const char *text = subject->drafted->conditions;
    char path[PATH_MOST];
    return named_path(settings.draft, subject, path) && text_write(text, strlen(text), path);
}

static bool log_write(const struct subject *subject, const char *kind, const char *bytes, size_t n) {
    char path[PATH_MOST];
    return snprintf(path, sizeof path, "%s/%.64s-%08x-%u.%s", settings.log, subject->name, (unsigned)subject->source->sum,
                    subject->logged_n, kind) < PATH_MOST &&
           bytes && text_write(bytes, n, path);
}

/* What is needed to try it by hand, and what `explain` says, or else why it was not asked. */
void kept_log(struct subject *subject, const struct text *conditions, const struct answer *answer) {
    struct text words = {0};
    if (!settings.log || subject->logged_n >= LOGGED_MOST) return;
    text_add(&words, "%s\n\n", answer->words);
    log_write(subject, "cl", subject->source->bytes, subject->source->n);
    if (conditions->n && !conditions->is_short) {
        log_write(subject, "conditions", conditions->bytes, conditions->n);
        process_run("explain", subject->source, conditions, &words, NULL, seconds_now() + settings.seconds);
    }
    log_write(subject, "txt", words.bytes, words.n);
    subject->logged_n++;
    text_free(&words);
}
