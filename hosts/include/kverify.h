/* kverify.h: to ask, before a launch, whether an OpenCL C kernel was shown to be safe at that launch.
 *
 * Link libkverify.a (or libkverify.so). It needs malloc, realloc, free, memcpy, memmove, memset and memcmp, and nothing else of the system:
 * it reads no file, prints nothing, starts no thread, waits for nothing, keeps no state and never ends the process. A failed allocation is
 * the answer KV_MEMORY. Nothing is thrown. So each function may be called in any threads at the same time, but not in a signal handler, nor
 * in the child of a fork of a process with threads. A call needs up to KV_STACK bytes of stack.
 *
 * No pointer may be null, also where a length is 0. What is passed as `const` is only read, and nothing is kept after a call, but for what
 * kv_open keeps, which is a copy.
 *
 * WHAT IS PROVED. Of a library that is laid down as proved: kv_version, kv_check, kv_explain, kv_options, kv_meets and kv_run. kv_open,
 * kv_allows and kv_close are C, a few lines over kv_check and kv_meets, and nothing is proved of them.
 *
 * WHAT AN ANSWER 0 SAYS. If kv_check answers 0 of (kernel, conditions, certificate, options), and kv_meets answers 0 of (kernel,
 * conditions, options) and a launch, then that launch has no data race, no barrier divergence, no access outside a buffer, no overflow of
 * a signed result and no division by 0, if these hold, which the library cannot see:
 *   - the program is built of exactly these bytes, by OpenCL C 1.x, with the options that kv_options gives and no other -D, no -I, and no
 *     -cl-* option that changes the language;
 *   - the numbers of kv_range and kv_argument are those that clSetKernelArg and clEnqueueNDRangeKernel get (kverify_cl.h sees to it);
 *   - each buffer is writable where the kernel stores, and no other command and no host thread touches it meanwhile; sub-buffers of one
 *     buffer do not overlap;
 *   - with KV_HELD: its buffers hold what the `values` lines say when the launch begins;
 *   - with KV_BITS32: the device has 32 address bits (CL_DEVICE_ADDRESS_BITS);
 *   - what docs/PREMISES.md says of devices.
 */
#ifndef KVERIFY_H
#define KVERIFY_H
#include <stddef.h>
#include <stdint.h>
#ifdef __cplusplus
extern "C" {
#endif

/* The version of this interface; kv_version() gives that of the library. A number is never used again, and a struct never changes. */
#define KV_VERSION 1u
#define KV_STACK (1u << 21)

/* Options, joined by |. Without any a text is read as ./kverify reads it: OpenCL C, conditions and certificates of all versions, for
 * devices of any address width. */
#define KV_BITS32 1u /* for devices with 32 address bits alone, as --devices 32 */
#define KV_HELD 2u   /* the host answers for what the `values` lines say of buffers */

/* Refusals beside those of docs/FORMATS.md (1 to 60, 70, 71, 90). */
#define KV_OK 0u
#define KV_UNMET 40u     /* place: the line of the conditions that the launch does not meet */
#define KV_ARGUMENTS 41u /* place: the argument (from 0) that is missing, too much, of another kind or size than its parameter, a
                            buffer whose memory is 0, or a __local one that is smaller than COUNT scalars, by its `local` line,
                            where COUNT counts the components of vectors; or a `long` whose number is that of no int */
#define KV_SIZES 42u     /* place: the dimension whose sizes are not 1 to 65,536 whole groups of the kernel's, or of the `local_size`
                            line's, size; or `dimensions`, if that is not 1 to 3 */
#define KV_OFFSET 43u    /* place: the dimension with a global offset */
#define KV_SHARED 44u    /* place: the buffer argument that is the same memory as an earlier one */
#define KV_UNSAID 45u    /* place: the first `values` line; the launch meets all else, and KV_HELD was not given */
#define KV_LONG 47u      /* place: the buffer argument of over 4,294,967,295 elements, of which nothing is said: pass a sub-buffer */
#define KV_MEMORY 90u
/* 46 and 48 are not in use. */

/* What a call answers: its number again; the line of a text, the number of an obligation or of an argument; and a column of the kernel's
 * text, or 0. Which it is goes by the number: 1 to 29, 35, 53 and 55 the kernel's line and column; 30 to 34, 40 and 45 a line of the
 * conditions; 50 a line of the certificate; 52 an obligation. Where kv_check answers 0 of the same texts, 30 to 34 of kv_run are a line of
 * the launch. */
typedef struct {
    uint32_t number, column;
    uint64_t place;
} kv_answer;

/* As clEnqueueNDRangeKernel gets them. Only `dimensions` (1 to 3) entries are read; the others count as one work-item. `local` is always
 * said: where a host hands over NULL, the device chooses, and nothing was shown of what it chooses. */
typedef struct {
    uint32_t dimensions;
    uint32_t fill; /* reserved, 0 */
    uint64_t offset[3], global[3], local[3];
} kv_range;

/* As clSetKernelArg gets them, by the same index.
 * KV_VALUE:  `bytes` is the size of the value (1 to 64), `words` has its bytes, as memcpy puts them there, and 0 behind them.
 * KV_BUFFER: `bytes` is the size of the buffer (CL_MEM_SIZE), `memory` a number of its own that is not 0, such as the cl_mem.
 * KV_LOCAL:  `bytes` is the size of the __local memory. */
#define KV_VALUE 0u
#define KV_BUFFER 1u
#define KV_LOCAL 2u
typedef struct {
    uint32_t kind;
    uint32_t reserved; /* 0 */
    uint64_t bytes, memory;
    uint32_t words[16];
} kv_argument;

uint32_t kv_version(void);

/* Whether the certificate shows the kernel safe under the conditions. */
uint32_t kv_check(const void *kernel, size_t kernel_n, const void *conditions, size_t conditions_n, const void *certificate,
                  size_t certificate_n, uint32_t options, kv_answer *answer);

/* The answer in words. Gives the whole length; at most `n` bytes of it are put into `room`, with no 0 behind. */
uint64_t kv_explain(const void *kernel, size_t kernel_n, const void *conditions, size_t conditions_n, const void *certificate,
                    size_t certificate_n, uint32_t options, char *room, size_t n);

/* The words for clBuildProgram that the `define` lines of the conditions are (-DNAME=TOKENS; a blank between tokens is written as a
 * comment, one between quotation marks as \040). Gives the whole length; at most `n` bytes are put into `room`, with no 0 behind. 0 where
 * there are none, and where the head of the conditions is refused. */
uint64_t kv_options(const void *conditions, size_t conditions_n, char *room, size_t n);

/* Whether a launch meets the conditions. It says nothing of a kernel that was not checked. */
uint32_t kv_meets(const void *kernel, size_t kernel_n, const void *conditions, size_t conditions_n, uint32_t options,
                  const kv_range *range, const kv_argument *arguments, size_t arguments_n, kv_answer *answer);

/* Checks the kernel, and runs it at a launch on the calling thread, without a device. The launch is a text, with the words of its buffers
 * (docs/FORMATS.md, "Conditions and launches"); `values` lines are tested. Where the answer is 0, the text of the buffers with which every
 * run of all work-items ends that is over, a line `buffer NAME list W W ..` each, has `*whole` bytes, of which at most `n` are put into
 * `room`, with no 0 behind. (12 bytes for each element and 13 for each name and its bytes are enough.) Else `*whole` is 0, and nothing is
 * put there. Refusals beside those of kv_check: 71, the kernel computes with `float`; 30 to 34, of the launch's text; 40, the first line of
 * the conditions that the launch does not meet. KV_HELD counts for nothing. */
uint32_t kv_run(const void *kernel, size_t kernel_n, const void *conditions, size_t conditions_n, const void *certificate,
                size_t certificate_n, const void *launch, size_t launch_n, uint32_t options, char *room, size_t n, uint64_t *whole,
                kv_answer *answer);

/* kv_check and kv_meets in two steps, in C: kv_open is kv_check, and where that answers 0 it keeps a copy of kernel and conditions;
 * kv_allows is kv_meets of these, and reads them anew each time. Of the options KV_BITS32 counts at kv_open, and KV_HELD at kv_allows.
 * `handle` is written only where the answer is 0. A handle may be used by many threads at once, and is gone after kv_close. */
typedef struct kv_kernel kv_kernel;
uint32_t kv_open(const void *kernel, size_t kernel_n, const void *conditions, size_t conditions_n, const void *certificate,
                 size_t certificate_n, uint32_t options, kv_kernel **handle, kv_answer *answer);
uint32_t kv_allows(const kv_kernel *handle, uint32_t options, const kv_range *range, const kv_argument *arguments, size_t arguments_n,
                   kv_answer *answer);
void kv_close(kv_kernel *handle);

#ifdef __cplusplus
}
#endif
#endif
