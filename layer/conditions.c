/* conditions.c: conditions that launches meet (docs/FORMATS.md, "conditions 3").
 *
 * The general ones allow many launches: counts and numbers from 1 to the next power of two, and lengths that are told by numbers where they
 * are equal to one. The exact ones end at the launches that they are written of. */
#include "layer.h"

/* The largest budget: what is shown is that each work-item ends. */
#define BUDGET "budget 1000000000000\n"
#define GROUPS_MOST 65536u
#define GROUPS_PRODUCT_MOST 1048576u
/* How many buffers have lines `values`: two each, of 16. */
#define VALUES_MOST 8

static uint64_t next_power(uint64_t value) {
    uint64_t power = 1;
    while (power < value && power < UINT32_MAX) power *= 2;
    return power < value ? value : power;
}

static uint64_t local_of(const struct launch *launch, unsigned dimension) {
    return dimension < launch->range.dimensions ? launch->range.local[dimension] : 1;
}

static uint64_t groups_of(const struct launch *launch, unsigned dimension) {
    uint64_t local = local_of(launch, dimension);
    return dimension < launch->range.dimensions && local ? launch->range.global[dimension] / local : 1;
}

static unsigned char *component(const struct parameter *parameter, const kv_argument *argument, unsigned at) {
    return (unsigned char *)argument->words + (size_t)at * parameter->bytes;
}

/* One component of a value, extended to 64 bits. */
static int64_t component_of(const struct parameter *parameter, const kv_argument *argument, unsigned at) {
    const unsigned char *bytes = component(parameter, argument, at);
    uint64_t value = 0, sign = (uint64_t)1 << (8 * parameter->bytes - 1);
    unsigned byte;
    for (byte = parameter->bytes; byte-- > 0;) value = value << 8 | bytes[byte];
    if (!parameter->is_unsigned && value & sign) return (int64_t)(value - 2 * sign);
    return (int64_t)value;
}

static void component_name(const struct parameter *parameter, unsigned at, char *name, size_t n) {
    snprintf(name, n, parameter->components == 1 ? "%s" : "%s_s%x", parameter->name, at);
}

static uint64_t length_of(const struct subject *subject, const struct launch *launch, unsigned at) {
    unsigned bytes = subject->parameters[at].bytes;
    uint64_t length = bytes ? launch->arguments[at].bytes / bytes : launch->arguments[at].bytes;
    return length > UINT32_MAX ? UINT32_MAX : length;
}

/* ---- numbers of a launch, and sums of them ---- */

static void numbers_add(struct numbers *numbers, const char *name, uint64_t factor, int64_t value) {
    struct number *number = &numbers->at[numbers->n];
    if (numbers->n == NUMBERS_MOST) return;
    snprintf(number->name, sizeof number->name, "%s", name);
    number->factor = factor;
    number->value = value > 0 ? (uint64_t)value : 0;
    numbers->n++;
}

/* The sizes come first: an index that is an id is below them, whatever else is tested. */
static void numbers_of(const struct subject *subject, const struct launch *launch, struct numbers *numbers) {
    char name[144];
    unsigned at, part;
    numbers->n = 0;
    for (at = 0; at < 3; at++) {
        snprintf(name, sizeof name, "groups.%u", at);
        numbers_add(numbers, name, local_of(launch, at), at < launch->range.dimensions ? (int64_t)launch->range.global[at] : 0);
    }
    for (at = 0; at < launch->arguments_n; at++) {
        const struct parameter *parameter = &subject->parameters[at];
        for (part = 0; launch->arguments[at].kind == KV_VALUE && !parameter->is_float && part < parameter->components; part++) {
            component_name(parameter, part, name, sizeof name);
            numbers_add(numbers, name, 1, component_of(parameter, &launch->arguments[at], part));
        }
    }
}

/* A sum: a factor times a number, or times the product of two; or a number and 1. */
struct sum {
    unsigned factor, one, two, more; /* two: NUMBERS_MOST where there is none */
};

/* The sums in their order: of each factor the numbers alone, and then the products; at last the numbers and 1. */
static struct sum sum_numbered(unsigned at) {
    static const unsigned factors[FACTORS] = {1, 2, 3, 4, 8, 16};
    unsigned of_factor = NUMBERS_MOST + NUMBERS_MOST * NUMBERS_MOST, in = at % of_factor, pair = in - NUMBERS_MOST;
    if (at >= FACTORS * of_factor) return (struct sum){1, at - FACTORS * of_factor, NUMBERS_MOST, 1};
    if (in < NUMBERS_MOST) return (struct sum){factors[at / of_factor], in, NUMBERS_MOST, 0};
    return (struct sum){factors[at / of_factor], pair / NUMBERS_MOST, pair % NUMBERS_MOST, 0};
}

/* The value of a sum, or 0 where it is none to be written. */
static uint64_t sum_value(const struct numbers *numbers, unsigned at) {
    struct sum sum = sum_numbered(at);
    uint64_t one = sum.one < numbers->n ? numbers->at[sum.one].value : 0;
    uint64_t two = sum.two < numbers->n ? numbers->at[sum.two].value : sum.two == NUMBERS_MOST;
    bool is_other = sum.two < sum.one || (sum.more && numbers->at[sum.one].factor != 1);
    if (is_other || !one || !two || one > UINT32_MAX || two > UINT32_MAX || one * two > UINT32_MAX) return 0;
    return sum.factor * one * two + sum.more;
}

static void sum_write(const struct numbers *numbers, unsigned at, struct text *conditions) {
    struct sum sum = sum_numbered(at);
    const struct number *one = &numbers->at[sum.one], *two = sum.two < NUMBERS_MOST ? &numbers->at[sum.two] : NULL;
    uint64_t factor = sum.factor * one->factor * (two ? two->factor : 1);
    if (sum.more) text_add(conditions, "%s + 1", one->name);
    else text_add(conditions, "%" PRIu64 "*%s%s%s", factor, one->name, two ? "*" : "", two ? two->name : "");
}

static bool has(const struct sums *sums, enum relation relation, unsigned at) {
    return sums->bits[relation][at / 8] >> at % 8 & 1;
}

static void put(struct sums *sums, enum relation relation, unsigned at, bool is_so) {
    unsigned char bit = (unsigned char)(1u << at % 8);
    if (is_so) sums->bits[relation][at / 8] |= bit;
    else sums->bits[relation][at / 8] &= (unsigned char)~bit;
}

/* Which sums are so at each launch up to this one, and which have been equal to the length at one of them. */
static void sums_join(struct sums *sums, const struct numbers *numbers, uint64_t length, const struct contents *contents, bool is_first) {
    unsigned at;
    for (at = 0; at < SUMS_MOST; at++) {
        uint64_t value = sum_value(numbers, at);
        bool is_known = value && contents->is_read;
        put(sums, EQUALS, at, value && (value == length || (!is_first && has(sums, EQUALS, at))));
        put(sums, FITS, at, value && value <= length && (is_first || has(sums, FITS, at)));
        put(sums, REACHES, at, is_known && (int64_t)value >= contents->most && (is_first || has(sums, REACHES, at)));
        put(sums, PASSES, at, is_known && (int64_t)value > contents->most && (is_first || has(sums, PASSES, at)));
    }
}

/* The sum by which the length of a buffer is told, or -1. */
static int sum_of_length(const struct sums *sums) {
    unsigned at;
    for (at = 0; at < SUMS_MOST; at++)
        if (has(sums, FITS, at) && has(sums, EQUALS, at)) return (int)at;
    return -1;
}

/* The least sum that no word of a buffer is above, or -1: a number alone, or the sum by which a length is told. */
static int sum_of_words(const struct hull *hull, const struct sums *sums) {
    int best = -1, at;
    for (at = 0; at < NUMBERS_MOST + (int)hull->low.arguments_n; at++) {
        bool is_length = at >= NUMBERS_MOST && hull->low.arguments[at - NUMBERS_MOST].kind == KV_BUFFER;
        int sum = at < NUMBERS_MOST ? at : is_length ? sum_of_length(&hull->sums[at - NUMBERS_MOST]) : -1;
        if (sum < 0 || !has(sums, REACHES, (unsigned)sum)) continue;
        if (best < 0 || sum_value(&hull->numbers, (unsigned)sum) < sum_value(&hull->numbers, (unsigned)best)) best = sum;
    }
    return best;
}

/* ---- launches together ---- */

static bool is_joinable(const struct subject *subject, const struct hull *hull, const struct launch *launch) {
    unsigned at;
    bool is_so = subject->parameters_n == launch->arguments_n && hull->low.arguments_n == launch->arguments_n;
    for (at = 0; at < 3; at++) is_so = is_so && local_of(&hull->low, at) == local_of(launch, at);
    for (at = 0; is_so && at < launch->arguments_n; at++) {
        const kv_argument *old = &hull->low.arguments[at], *new = &launch->arguments[at];
        is_so = old->kind == new->kind && (new->kind != KV_VALUE || old->bytes == new->bytes) && subject->parameters[at].bytes;
    }
    return is_so;
}

static void join_argument(const struct parameter *parameter, struct hull *hull, const struct launch *launch, unsigned at) {
    struct contents *low = &hull->low.contents[at], *high = &hull->high.contents[at];
    const kv_argument *argument = &launch->arguments[at];
    unsigned part;
    for (part = 0; argument->kind == KV_VALUE && part < parameter->components; part++) {
        kv_argument *least = &hull->low.arguments[at], *most = &hull->high.arguments[at];
        const void *bytes = component(parameter, argument, part);
        int64_t word = component_of(parameter, argument, part);
        if (word < component_of(parameter, least, part)) memcpy(component(parameter, least, part), bytes, parameter->bytes);
        if (word > component_of(parameter, most, part)) memcpy(component(parameter, most, part), bytes, parameter->bytes);
    }
    if (argument->bytes < hull->low.arguments[at].bytes) hull->low.arguments[at].bytes = argument->bytes;
    low->is_read = low->is_read && launch->contents[at].is_read;
    if (launch->contents[at].least < low->least) low->least = launch->contents[at].least;
    if (launch->contents[at].most > high->most) high->most = launch->contents[at].most;
}

bool hull_join(const struct subject *subject, struct hull *hull, const struct launch *launch) {
    bool is_first = !hull->has_launches;
    unsigned at;
    if (is_first) hull->low = hull->high = *launch;
    if (!is_joinable(subject, hull, launch)) return false;
    for (at = 0; at < 3; at++) {
        uint64_t local = local_of(launch, at), global = groups_of(launch, at) * local;
        bool is_new = is_first || at >= hull->low.range.dimensions;
        hull->low.range.local[at] = hull->high.range.local[at] = local;
        if (is_new || global < hull->low.range.global[at]) hull->low.range.global[at] = global;
        if (is_new || global > hull->high.range.global[at]) hull->high.range.global[at] = global;
    }
    hull->low.range.dimensions = hull->high.range.dimensions = 3;
    numbers_of(subject, launch, &hull->numbers);
    for (at = 0; at < launch->arguments_n; at++) {
        join_argument(&subject->parameters[at], hull, launch, at);
        if (launch->arguments[at].kind == KV_BUFFER)
            sums_join(&hull->sums[at], &hull->numbers, length_of(subject, launch, at), &launch->contents[at], is_first);
    }
    return hull->has_launches = true;
}

/* ---- the lines ---- */

void conditions_head(const struct subject *subject, const struct launch *launch, struct text *conditions) {
    text_add(conditions, "conditions 3\nkernel %s\n%slocal_size %" PRIu64 " %" PRIu64 " %" PRIu64 "\n", subject->name, subject->defines,
             local_of(launch, 0), local_of(launch, 1), local_of(launch, 2));
}

/* The ranges of general conditions go to powers of two, or to the launches themselves, where a length is no sum of their numbers. */
static void write_groups(const struct hull *hull, enum breadth breadth, bool is_to_powers, struct text *conditions) {
    uint64_t most[3], product = 1;
    unsigned at;
    for (at = 0; at < 3; at++) {
        most[at] = groups_of(&hull->high, at);
        if (is_to_powers) most[at] = next_power(most[at]);
        product *= most[at] > GROUPS_MOST ? GROUPS_MOST + 1u : most[at];
    }
    text_add(conditions, "groups");
    for (at = 0; at < 3; at++) {
        if (product > GROUPS_PRODUCT_MOST) most[at] = groups_of(&hull->high, at);
        text_add(conditions, " %" PRIu64 "..%" PRIu64, breadth == GENERAL ? 1 : groups_of(&hull->low, at), most[at]);
    }
    text_add(conditions, "\n");
}

static void write_value(const struct parameter *parameter, const struct hull *hull, unsigned at, enum breadth breadth, bool is_to_powers,
                        struct text *conditions) {
    char name[144];
    unsigned part;
    for (part = 0; part < parameter->components; part++) {
        int64_t low = component_of(parameter, &hull->low.arguments[at], part);
        int64_t high = component_of(parameter, &hull->high.arguments[at], part);
        /* (a long has the range of an int) */
        unsigned bits = parameter->bytes < 4 ? 8 * parameter->bytes : 32;
        int64_t most = (int64_t)((uint64_t)1 << (bits - (parameter->is_unsigned ? 0 : 1))) - 1;
        bool is_any = breadth == GENERAL && parameter->is_float;
        if (is_to_powers && low > 0) high = (int64_t)next_power((uint64_t)high);
        if (breadth == GENERAL && low > 0) low = 1;
        component_name(parameter, part, name, sizeof name);
        text_add(conditions, "arg %s %" PRId64 "..%" PRId64 "\n", name, is_any ? 0 : low, is_any ? UINT32_MAX : high > most ? most : high);
    }
}

/* What the buffers hold that are only loaded. */
static void write_values(const struct subject *subject, const struct hull *hull, struct manner manner, struct text *conditions) {
    enum breadth breadth = manner.breadth;
    unsigned at, n = 0;
    for (at = 0; at < hull->low.arguments_n && n < VALUES_MOST; at++) {
        const char *name = subject->parameters[at].name;
        int64_t least = hull->low.contents[at].least, most = hull->high.contents[at].most;
        int sum = breadth == GENERAL ? sum_of_words(hull, &hull->sums[at]) : -1;
        if (!hull->low.contents[at].is_read || !subject->parameters[at].is_const || !(manner.values >> at & 1)) continue;
        if (breadth == GENERAL && most >= 0) most = (int64_t)next_power((uint64_t)most + 1) - 1;
        text_add(conditions, "values %s >= %" PRId64 "\nvalues %s <= ", name, breadth == GENERAL && least > 0 ? 0 : least, name);
        if (sum >= 0) sum_write(&hull->numbers, (unsigned)sum, conditions);
        else text_add(conditions, "%" PRId64, most);
        text_add(conditions, sum >= 0 && has(&hull->sums[at], PASSES, (unsigned)sum) ? " + -1\n" : "\n");
        n++;
    }
}

static void write_length(const struct subject *subject, const struct hull *hull, unsigned at, enum breadth breadth,
                         struct text *conditions) {
    int sum = breadth == GENERAL ? sum_of_length(&hull->sums[at]) : -1;
    text_add(conditions, "length %s >= ", subject->parameters[at].name);
    if (sum >= 0) sum_write(&hull->numbers, (unsigned)sum, conditions);
    else text_add(conditions, "%" PRIu64, length_of(subject, &hull->low, at));
    text_add(conditions, "\n");
}

void conditions_write(const struct subject *subject, const struct hull *hull, struct manner manner, struct text *conditions) {
    const struct launch *low = &hull->low;
    enum breadth breadth = manner.breadth;
    bool is_to_powers = breadth == GENERAL;
    unsigned at;
    text_free(conditions);
    conditions_head(subject, low, conditions);
    for (at = 0; at < low->arguments_n; at++) {
        if (low->arguments[at].kind == KV_LOCAL)
            text_add(conditions, "local %s %" PRIu64 "\n", subject->parameters[at].name, length_of(subject, low, at));
        if (low->arguments[at].kind == KV_BUFFER && sum_of_length(&hull->sums[at]) < 0) is_to_powers = false;
    }
    write_groups(hull, breadth, is_to_powers, conditions);
    for (at = 0; at < low->arguments_n; at++)
        if (low->arguments[at].kind == KV_VALUE)
            write_value(&subject->parameters[at], hull, at, breadth, is_to_powers, conditions);
    for (at = 0; at < low->arguments_n; at++)
        if (low->arguments[at].kind == KV_BUFFER) write_length(subject, hull, at, breadth, conditions);
    write_values(subject, hull, manner, conditions);
    text_add(conditions, BUDGET);
}

/* ---- reading them ---- */

const char *next_line(const char *line) {
    line = strchr(line, '\n');
    return line && line[1] ? line + 1 : NULL;
}

int conditions_buffer(const char *text, const struct launch *launch, uint64_t number, const char *name, size_t n) {
    uint64_t line = 1;
    uint32_t at = 0;
    for (; text; text = next_line(text), line++) {
        if (strncmp(text, "length ", 7)) continue;
        while (at < launch->arguments_n && launch->arguments[at].kind != KV_BUFFER) at++;
        if (at == launch->arguments_n) return -1;
        if (line == number || (n && !strncmp(text + 7, name, n) && text[7 + n] == ' ')) return (int)at;
        at++;
    }
    return -1;
}

/* The next guess of an element's size, where the type's name does not say it: the launch has fewer elements then. */
static bool guess(struct subject *subject, const struct launch *launch, int at) {
    struct parameter *parameter = &subject->parameters[at];
    if (!parameter->is_guess || launch->arguments[at].kind == KV_VALUE || parameter->bytes == 4) return false;
    /* (what was drafted may count too many elements) */
    LOCKED(parameter->bytes *= 2; subject->has_no_draft |= subject->draft != NULL);
    return true;
}

/* A value of a type whose name says nothing is taken for words. The lock is held. */
static void guess_first(struct subject *subject, const struct launch *launch) {
    uint32_t at;
    for (at = 0; at < launch->arguments_n && at < subject->parameters_n; at++) {
        struct parameter *parameter = &subject->parameters[at];
        const kv_argument *argument = &launch->arguments[at];
        bool is_small = argument->bytes == 1 || argument->bytes == 2;
        if (parameter->bytes) continue;
        parameter->bytes = argument->kind != KV_VALUE ? 1 : is_small ? (unsigned)argument->bytes : 4;
        if (argument->kind == KV_VALUE) parameter->components = is_small ? 1 : (unsigned)argument->bytes / 4;
        parameter->is_unsigned = true;
    }
}

uint32_t conditions_try(struct subject *subject, const struct launch *launch, struct hull *hull, struct text *conditions,
                        kv_answer *answer) {
    const struct source *source = subject->source;
    unsigned tries = 2 * ARGUMENTS_MOST;
    LOCKED(guess_first(subject, launch));
    for (;;) {
        int at = -1;
        hull->has_launches = false;
        *answer = (kv_answer){KV_ARGUMENTS, 0, launch->arguments_n};
        if (!hull_join(subject, hull, launch)) return KV_ARGUMENTS;
        conditions_write(subject, hull, (struct manner){EXACT, 0}, conditions);
        *answer = (kv_answer){KV_MEMORY, 0, 0};
        if (conditions->is_short) return KV_MEMORY;
        if (!kv_meets(source->bytes, source->n, conditions->bytes, conditions->n, 0, &launch->range, launch->arguments, launch->arguments_n,
                      answer))
            return KV_OK;
        if (answer->number == KV_UNMET) at = conditions_buffer(conditions->bytes, launch, answer->place, NULL, 0);
        else if (answer->number == KV_ARGUMENTS && answer->place < subject->parameters_n) at = (int)answer->place;
        if (at < 0 || !--tries || !guess(subject, launch, at)) return answer->number;
    }
}

bool conditions_fit(const struct subject *subject, const struct text *conditions) {
    const char *at = words_of(conditions);
    struct text defines = {0};
    size_t name_n = strlen(subject->name);
    bool fits = strlen(at) == conditions->n;
    while ((at = strchr(at, '\n')) != NULL && *++at) {
        size_t n = strcspn(at, "\n");
        if (!strncmp(at, "kernel ", 7)) fits = fits && n == name_n + 7 && !memcmp(at + 7, subject->name, name_n);
        else if (!strncmp(at, "define ", 7)) text_add_bytes(&defines, at, n + (at[n] == '\n'));
        else if (strncmp(at, "local", 5)) break;
    }
    fits = fits && !defines.is_short && !strcmp(words_of(&defines), subject->defines);
    text_free(&defines);
    return fits;
}
