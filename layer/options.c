/* options.c: the options of a build, as lines of conditions.
 *
 * What kverify is told of a program has to be what the compiler gets (docs/PREMISES.md, 1, 14 and 18). What cannot be told is a reason why
 * nothing is asked of the program's kernels: an option that is not known, one that changes the language, a text that asks what kverify does
 * not know of the device. Extensions that the text names, and the devices have, are told as the macros that compilers make of them. */
#include "layer.h"

/* Options that change no integer and no order (5.6.4). Of a float nothing is assumed but that it has some value. Those by which a program
 * promises to have no NaN and no infinity are not among them: where it has, it may do anything. */
static const char *const harmless[] = {"-cl-mad-enable", "-cl-no-signed-zeros", "-cl-denorms-are-zero",
                                       "-cl-opt-disable", "-cl-kernel-arg-info", "-cl-fp32-correctly-rounded-divide-sqrt",
                                       "-w", "-Werror", "-g"};

static bool is_harmless(const char *word, size_t n) {
    size_t at = 0, words_n = sizeof harmless / sizeof *harmless;
    while (at < words_n && (strlen(harmless[at]) != n || memcmp(harmless[at], word, n))) at++;
    return at < words_n;
}

/* Functions of the standard (OpenCL 1.2, 6.12), with a blank on both sides. Compilers may define such a name anew behind what an option
 * says of it. */
static const char functions[] =
    " abs abs_diff acos acosh acospi add_sat all any asin asinh asinpi async_ atan atan2 atan2pi atanh atanpi atom_ atomic_ barrier "
    "bitselect cbrt ceil clamp clz copysign cos cosh cospi cross degrees distance dot erf erfc exp exp10 exp2 expm1 fabs fast_distance "
    "fast_length fast_normalize fdim floor fma fmax fmin fmod fract frexp get_global_id get_global_offset get_global_size get_group_id "
    "get_image_ get_local_id get_local_size get_num_groups get_work_dim hadd hypot ilogb isequal isfinite isgreater isgreaterequal "
    "isinf isless islessequal islessgreater isnan isnormal isnotequal isordered isunordered ldexp length lgamma lgamma_r log log10 "
    "log1p log2 logb mad mad24 mad_hi mad_sat max maxmag mem_fence min minmag mix modf mul24 mul_hi nan nextafter normalize popcount "
    "pow pown powr prefetch printf radians read_image read_mem_fence remainder remquo rhadd rint rootn rotate round rsqrt select "
    "shuffle shuffle2 sign signbit sin sincos sinh sinpi smoothstep sqrt step sub_sat tan tanh tanpi tgamma trunc upsample vec_step "
    "wait_group_events write_image write_mem_fence ";
/* Beginnings of names. */
static const char *const beginnings[] = {"convert_", "as_",   "vload",      "vstore",      "native_",   "half_",
                                         "atomic_",  "atom_", "read_image", "write_image", "get_image", "async_work_group"};

static bool is_of_standard(const char *name, size_t n) {
    char word[64] = " ";
    size_t at;
    for (at = 0; at < sizeof beginnings / sizeof *beginnings; at++)
        if (n >= strlen(beginnings[at]) && !memcmp(name, beginnings[at], strlen(beginnings[at]))) return true;
    if (n > sizeof word - 3) return false;
    memcpy(word + 1, name, n);
    word[n + 1] = ' ';
    return strstr(functions, word) != NULL;
}

static bool is_letter(char c) {
    return (c >= 'a' && c <= 'z') || (c >= 'A' && c <= 'Z') || c == '_';
}

static bool goes_on(char c) {
    return is_letter(c) || (c >= '0' && c <= '9');
}

static size_t name_length(const char *text) {
    size_t n = 0;
    while (goes_on(text[n])) n++;
    return n;
}

/* What stands behind -D, as a line `define`. */
static void define(const char *word, size_t n, struct text *defines, struct text *why) {
    const char *equals = memchr(word, '=', n);
    size_t left = equals ? (size_t)(equals - word) : n;
    size_t name_n = n && is_letter(*word) ? name_length(word) : 0;
    if (!name_n || name_n > left || is_of_standard(word, name_n))
        text_add(why, "the option -D %.*s", (int)(n < 60 ? n : 60), word);
    text_add(defines, "define %.*s%s%.*s\n", (int)left, word, equals ? " " : "", equals ? (int)(n - left - 1) : 0,
             equals ? equals + 1 : "");
}

static const char *next_word(const char *at, size_t *n) {
    at += strspn(at, " \t\r\n");
    *n = strcspn(at, " \t\r\n");
    return at;
}

/* The language that the options ask for: 12 of OpenCL C 1.2, 10 and 11; 0 where they do not say. */
static void words_read(const char *options, struct text *defines, struct text *why, unsigned *language) {
    size_t n;
    const char *at = next_word(options, &n);
    for (; n; at = next_word(at + n, &n)) {
        bool is_alone = n == 2;
        if (n >= 2 && at[0] == '-' && (at[1] == 'D' || at[1] == 'I')) {
            bool is_define = at[1] == 'D';
            at = is_alone ? next_word(at + 2, &n) : at + 2;
            n -= is_alone ? 0 : 2;
            if (is_define) define(at, n, defines, why);
        } else if (n == 13 && !memcmp(at, "-cl-std=CL1.", 12) && at[12] >= '0' && at[12] <= '2') {
            *language = 10 + (unsigned)(at[12] - '0');
        } else if (!is_harmless(at, n)) {
            text_add(why, "the option %.*s", (int)(n < 60 ? n : 60), at);
        }
        if (why->n) return;
    }
}

static bool has_extension(const char *extensions, const char *name, size_t n) {
    const char *at = extensions;
    while ((at = strstr(at, name)) != NULL) {
        if ((at == extensions || at[-1] == ' ') && (!at[n] || at[n] == ' ')) return true;
        at += n;
    }
    return false;
}

/* A name of the text: an extension is told as a macro; and what it may not ask for. */
static void name_read(const char *name, size_t n, bool is_asked, unsigned language, const char *extensions, struct text *defines,
                      struct text *why) {
    char line[128];
    if (n > 100) return;
    snprintf(line, sizeof line, "define %.*s\n", (int)n, name);
    if (!strcmp(line, "define __OPENCL_VERSION__\n") || (!strcmp(line, "define __OPENCL_C_VERSION__\n") && language != 12))
        text_add(why, "the text asks for %.*s", (int)n, name);
    if (is_asked && is_of_standard(name, n)) text_add(why, "a condition asks for %.*s", (int)n, name);
    if (n < 4 || memcmp(name, "cl_", 3) || (defines->bytes && strstr(defines->bytes, line))) return;
    line[7 + n] = 0;
    if (has_extension(extensions, line + 7, n)) text_add(defines, "%s\n", line);
}

/* Whether a line is a condition: `#if`, `#ifdef`, `#ifndef`, `#elif`. */
static bool is_condition(const char *line) {
    line += strspn(line, " \t");
    if (*line != '#') return false;
    line++;
    line += strspn(line, " \t");
    return !strncmp(line, "if", 2) || !strncmp(line, "elif", 4);
}

/* A text without the ends of lines that `\` joins; with a 0 behind it. */
static char *joined(const struct source *source) {
    size_t at, n = 0;
    char *text = malloc(source->n + 1);
    if (!text) return NULL;
    for (at = 0; at < source->n; at++) {
        if (source->bytes[at] == '\\' && at + 1 < source->n && source->bytes[at + 1] == '\n') at++;
        else if (source->bytes[at] == '\\' && at + 2 < source->n && !memcmp(source->bytes + at + 1, "\r\n", 2)) at += 2;
        else text[n++] = source->bytes[at] ? source->bytes[at] : ' ';
    }
    text[n] = 0;
    return text;
}

static void names_read(const struct source *source, unsigned language, const char *extensions, struct text *defines, struct text *why) {
    char *text = joined(source), *at = text;
    bool is_asked = text && is_condition(text);
    if (!text) why->is_short = true;
    while (text && *at && !why->n) {
        size_t n = is_letter(*at) ? name_length(at) : 0;
        if (n) name_read(at, n, is_asked, language, extensions, defines, why);
        else if (*at == '\n') is_asked = is_condition(at + 1);
        else if (goes_on(*at)) n = name_length(at);
        at += n ? n : 1;
    }
    free(text);
}

void options_read(const char *options, const struct source *source, const char *extensions, struct text *defines, struct text *why) {
    unsigned language = 0;
    if (strpbrk(options, "\"'\\")) {
        text_add(why, "options with quotes");
        return;
    }
    words_read(options, defines, why, &language);
    if (!why->n) names_read(source, language, extensions, defines, why);
    if (defines->is_short || why->is_short) text_add(why, "%s", WANT_OF_MEMORY);
}
