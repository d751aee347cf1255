/* layer.h: what the parts of the layer share.
 *
 * A layer lies between a program and its OpenCL. This one keeps what the program says of its kernels, and asks of each launch whether the
 * kernel was shown to be safe at it (kverify.h). One lock guards all that is kept. The layer never calls OpenCL, and starts no process,
 * while it holds that lock. */
#ifndef KVERIFY_LAYER_H
#define KVERIFY_LAYER_H
#define CL_TARGET_OPENCL_VERSION 300
#define CL_USE_DEPRECATED_OPENCL_1_1_APIS
#define CL_USE_DEPRECATED_OPENCL_1_2_APIS
#define CL_USE_DEPRECATED_OPENCL_2_0_APIS
#define CL_USE_DEPRECATED_OPENCL_2_1_APIS
#define CL_USE_DEPRECATED_OPENCL_2_2_APIS
#include <CL/cl_layer.h>
#include <inttypes.h>
#include <pthread.h>
#include <stdbool.h>
#include <stdio.h>
#include <stdlib.h>
#include <string.h>
#include <time.h>
#include "kverify.h"

#define ARGUMENTS_MOST 64
#define WORDS_MOST 200
/* How many questions of one kernel are asked in vain. */
#define REFUSED_MOST 8
#define WANT_OF_MEMORY "want of memory"

/* OpenCL below this layer. */
extern cl_icd_dispatch below;
/* Guards everything that is kept. */
extern pthread_mutex_t lock;
#define LOCKED(what) do { pthread_mutex_lock(&lock); what; pthread_mutex_unlock(&lock); } while (0)
#define UNLOCKED(what) do { pthread_mutex_unlock(&lock); what; pthread_mutex_lock(&lock); } while (0)

/* ---- texts.c: texts that grow, and files. ---- */
struct text {
    char *bytes; /* with a 0 behind them, or NULL */
    size_t n, room;
    bool is_short; /* memory ran out: what it has is not all */
};
void text_add(struct text *text, const char *format, ...) __attribute__((format(printf, 2, 3)));
void text_add_bytes(struct text *text, const char *bytes, size_t n);
void text_free(struct text *text);
const char *words_of(const struct text *text);
bool text_read(struct text *text, const char *path);
/* Puts a text in place whole, or not at all. */
bool text_write(const char *bytes, size_t n, const char *path);
bool text_read_file(struct text *text, int file);
uint64_t text_sum(uint64_t sum, const char *bytes, size_t n);

/* ---- objects.c: what the program made, by its handle. ---- */
enum object_kind { OBJECT_PROGRAM, OBJECT_KERNEL, OBJECT_MEMORY };
struct object {
    struct object *next;
    const void *handle;
    enum object_kind kind;
    unsigned references;
};
/* Memory is in a space: one of the host, or that of a buffer which is no part of another one. */
struct memory {
    struct object object;
    uint64_t serial, space, begin, bytes;
    bool is_read_only;
};
struct program {
    struct object object;
    struct source *source; /* an empty one where it is of no text */
    const char *origin;    /* why there is no text, in words that stay */
    cl_context context;
    char *options;       /* of the last build, or NULL */
    struct text defines; /* these options as lines of conditions */
    struct text why;     /* why these options cannot be told to kverify, or empty */
};
struct argument {
    kv_argument said;
    cl_mem memory; /* NULL where it is no buffer */
    uint64_t serial;
    bool is_set, is_unknown; /* unknown: of a kind that kverify.h has not */
};
struct kernel {
    struct object object;
    struct subject *subject;
    cl_context context;
    cl_uint arguments_n;
    struct argument *arguments;
    size_t size[3]; /* reqd_work_group_size, or 0 */
};
/* These want the lock to be held. */
struct object *object_find(const void *handle, enum object_kind kind);
void object_keep(struct object *object, const void *handle, enum object_kind kind);
void object_retain(const void *handle, enum object_kind kind);
void object_release(const void *handle, enum object_kind kind);

/* ---- launches.c: a launch, as kverify.h has it. ---- */
/* As clEnqueueNDRangeKernel gets it. */
struct call {
    cl_command_queue queue;
    cl_kernel kernel;
    cl_uint dimensions;
    const size_t *offset, *global, *local;
    cl_uint events_n;
    const cl_event *events;
};
/* The least and the greatest word of a buffer. */
struct contents {
    int64_t least, most;
    uint64_t is_read;
};
struct launch {
    kv_range range;
    uint32_t arguments_n;
    bool has_contents;  /* it was read what some of the buffers hold */
    uint64_t read_only; /* a bit for each argument that is a buffer which kernels only read */
    kv_argument arguments[ARGUMENTS_MOST];
    struct contents contents[ARGUMENTS_MOST];
};
enum verdict { ACCEPTED, NOT_SHOWN, NOT_READ, PENDING };
struct answer {
    enum verdict verdict;
    char words[WORDS_MOST]; /* why not */
};
/* Puts words into an answer that is not shown, or not read; gives false. */
bool answer_is(struct answer *answer, enum verdict verdict, const char *format, ...) __attribute__((format(printf, 3, 4)));
/* Whether there is something to ask; else the answer says why not. */
bool launch_make(struct launch *launch, const struct kernel *kernel, const struct call *call, struct answer *answer);
bool launch_is_same(const struct launch *one, const struct launch *other);
/* Whether the program's own OpenCL refuses the launch, so that nothing is asked. */
bool launch_is_faulty(const struct kernel *kernel, const struct call *call);

/* ---- options.c: the options of a build. ---- */
/* Puts lines `define` into `defines`, or into `why` what kverify cannot be told of. `extensions` are those of the devices. */
void options_read(const char *options, const struct source *source, const char *extensions, struct text *defines, struct text *why);

/* ---- subjects.c: kernels, by what they are made of; they stay to the end. ---- */
struct source {
    struct source *next;
    char *bytes;
    size_t n;
    uint64_t sum;
};
/* The shape of a parameter, by its type's name. */
struct parameter {
    char name[128], type[64];
    bool is_const;
    unsigned bytes, components; /* of a component; how many there are. 0: not known yet */
    bool is_unsigned, is_float, is_guess;
};
/* A certificate that was checked, with its conditions. */
struct shown {
    struct shown *next;
    kv_kernel *handle;
    bool has_values; /* lines `values` are among them */
    char conditions[];
};
struct outcome {
    struct outcome *next;
    enum verdict verdict;
    uint64_t launches;
    char words[WORDS_MOST];
};
struct question {
    struct question *next, *next_waiting;
    struct subject *subject;
    struct launch launch;
    cl_context context;
    cl_device_id device;
    struct answer answer;
    uint64_t launches; /* those that wait for the answer */
};
struct subject {
    struct subject *next;
    struct source *source;
    char *name, *defines, *options, *why;
    struct text given; /* conditions of a file, or empty */
    bool was_loaded, has_parameters, is_unread;
    bool is_late, is_long; /* its buffers were not read in time, or were too long for that */
    struct answer unread; /* why kverify does not read its text */
    unsigned parameters_n, shown_n, refused_n, waiting_n;
    unsigned kept_n, logged_n; /* how many files of it there are in the cache, and in the log */
    double milliseconds;
    struct launch *seen; /* those that were allowed last */
    unsigned seen_n, seen_next;
    struct parameter parameters[ARGUMENTS_MOST];
    struct shown *shown;
    struct question *questions;
    struct outcome *outcomes;
    /* The launches that its draft covers, and the certificate of that, or NULL. */
    struct hull *draft;
    struct shown *drafted;
    bool is_settled, has_no_draft;
    unsigned apart_n; /* how many launches no draft covered */
};
extern struct subject *subjects, strangers;
struct source *source_of(const char *bytes, size_t n);
struct subject *subject_of(struct source *source, const char *name, const char *defines, const char *options, const char *why);
bool subject_is_given(const struct subject *subject);
/* Counts launches under what came of them, and tells of the first one. */
void subject_count(struct subject *subject, const struct answer *answer, uint64_t launches);
/* These want the lock to be held. What is known of a launch by certificates that are there: by the draft's alone, where there is one, or by
 * any. */
bool subject_allows(struct subject *subject, const struct launch *launch, bool by_any, struct answer *answer);
/* Whether a certificate allows a launch, which is remembered then. */
bool subject_admits(struct subject *subject, struct shown *shown, const struct launch *launch, struct answer *answer);
/* Puts what a certificate shows in the place of the draft. */
void subject_draft(struct subject *subject, struct shown *shown);

/* ---- parameters.c: names and types of a kernel's parameters, by a build of the layer's own. ---- */
bool parameters_learn(struct subject *subject, cl_context context, cl_device_id device);
void parameters_forget(void);

/* ---- conditions.c: conditions that launches meet. ---- */
enum breadth { GENERAL, EXACT };
#define NUMBERS_MOST 24
#define FACTORS 6
#define SUMS_MOST (FACTORS * (NUMBERS_MOST + NUMBERS_MOST * NUMBERS_MOST) + NUMBERS_MOST)
/* A number that a launch is known by: `factor*name`. The value is 0 where it is not above that. */
struct number {
    char name[144];
    uint64_t factor, value;
};
struct numbers {
    struct number at[NUMBERS_MOST];
    unsigned n;
};
/* Of each sum of numbers a bit: that it was equal to a buffer's length once; that it was never above it; that no word of the buffer was
 * ever above it, or that each was below it. */
enum relation { EQUALS, FITS, REACHES, PASSES, RELATIONS };
struct sums {
    unsigned char bits[RELATIONS][SUMS_MOST / 8 + 1];
};
/* Launches together: the least and the greatest of their numbers, and what held at each of them. */
struct hull {
    bool has_launches;
    struct launch low, high;
    struct numbers numbers; /* those of the last one */
    struct sums sums[ARGUMENTS_MOST];
};
/* Whether a launch can be among the others; it is then. */
bool hull_join(const struct subject *subject, struct hull *hull, const struct launch *launch);
/* The lines in front: of the kernel, the options, and the size of a work-group. */
void conditions_head(const struct subject *subject, const struct launch *launch, struct text *conditions);
/* How conditions are written, with lines `values` of the arguments that have a bit, as far as it was read what these hold. */
struct manner {
    enum breadth breadth;
    uint64_t values;
};
/* Writes conditions that the launches meet. */
void conditions_write(const struct subject *subject, const struct hull *hull, struct manner manner, struct text *conditions);
/* Finds the sizes of elements whose type's name says nothing. Answers as kv_meets of the exact conditions, and leaves them. */
uint32_t conditions_try(struct subject *subject, const struct launch *launch, struct hull *hull, struct text *conditions,
                        kv_answer *answer);
/* Whether conditions from elsewhere speak of this kernel, and of a program that was built so. */
bool conditions_fit(const struct subject *subject, const struct text *conditions);
/* The argument of which the line `length` speaks that has this number, or this name; or -1. They stand in the order of the buffers. */
int conditions_buffer(const char *text, const struct launch *launch, uint64_t number, const char *name, size_t n);
/* The line behind a line, or NULL. */
const char *next_line(const char *line);

/* ---- contents.c: what buffers hold. ---- */
/* Reads the buffers of which conditions speak that are there, or else all those of integers that a kernel only loads. The lock is held, and
 * is let go in between; the kernel may be gone then. */
void contents_read(struct subject *subject, struct launch *launch, const struct kernel *kernel, const struct call *call);
/* Whether the buffers hold what the lines `values` say, of conditions that the launch meets but for them; else the answer says why not. */
bool contents_hold(const struct subject *subject, const char *conditions, const struct launch *launch, struct answer *answer);

/* ---- process.c: the program `kverify`, as a process. ---- */
enum ending { ENDED, TOO_LONG, NOT_STARTED };
enum ending process_run(const char *command, const struct source *source, const struct text *conditions, struct text *output,
                        struct text *certificate, double deadline);

/* ---- kept.c: what lies in folders: certificates, conditions by hand, drafts, what was refused. ---- */
void kept_load(struct subject *subject);
void kept_save(struct subject *subject, const struct text *conditions, const struct text *certificate);
void kept_conditions(struct subject *subject);
bool kept_draft(const struct subject *subject);
void kept_log(struct subject *subject, const struct text *conditions, const struct answer *answer);

/* ---- asking.c: the thread that asks. ---- */
/* The answer for a launch; it may be PENDING where the launch does not wait for it. The lock is held, and is let go in between. */
void asking_of(struct subject *subject, cl_context context, const struct launch *launch, cl_command_queue queue, bool waits,
               struct answer *answer);
/* Checks a certificate, and keeps it, or gives NULL. */
struct shown *asking_keep(struct subject *subject, const struct text *conditions, const struct text *certificate, kv_answer *answer);
/* Ends what goes on, within the time for one answer. */
void asking_end(void);

/* ---- policy.c: what is done with an answer. ---- */
enum policy { REPORT, REFUSE, REQUIRE };
struct settings {
    enum policy policy;
    const char *program, *conditions, *cache, *log, *draft; /* NULL: none */
    double seconds;
    uint32_t held; /* KV_HELD, or 0 */
    bool reads;
};
extern struct settings settings;
void policy_begin(void);
/* Has the table printed when the program ends. */
void policy_table_at_end(void);
/* Whether a launch may go on. */
bool policy_allows(const struct call *call);
/* Tells one line, on the standard error. */
void policy_tell(const char *format, ...) __attribute__((format(printf, 1, 2)));
double seconds_now(void);

#endif
