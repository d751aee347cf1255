/* kv_open, kv_allows and kv_close of kverify.h, in C: thin, over kv_check and kv_meets, whose answers theirs are. Nothing is proved of
 * these three. A handle keeps copies of the kernel and of the conditions, which are read anew at each question. */
#include <stdlib.h>
#include <string.h>
#include "kverify.h"

struct kv_kernel {
    size_t kernel_n, conditions_n;
    uint32_t options;
    char texts[]; /* the kernel, and the conditions behind it */
};

/* A handle of texts that were accepted, or a null pointer where memory is refused. */
static kv_kernel *handle_of(const void *kernel, size_t kernel_n, const void *conditions, size_t conditions_n, uint32_t options) {
    kv_kernel *made = (kv_kernel *)malloc(sizeof *made + kernel_n + conditions_n);
    if (!made) return NULL;
    made->kernel_n = kernel_n;
    made->conditions_n = conditions_n;
    made->options = options & KV_BITS32;
    memcpy(made->texts, kernel, kernel_n);
    memcpy(made->texts + kernel_n, conditions, conditions_n);
    return made;
}

uint32_t kv_open(const void *kernel, size_t kernel_n, const void *conditions, size_t conditions_n, const void *certificate,
                 size_t certificate_n, uint32_t options, kv_kernel **handle, kv_answer *answer) {
    uint32_t number = kv_check(kernel, kernel_n, conditions, conditions_n, certificate, certificate_n, options, answer);
    kv_kernel *made;
    if (number != KV_OK) return number;
    made = handle_of(kernel, kernel_n, conditions, conditions_n, options);
    if (!made) {
        memset(answer, 0, sizeof *answer);
        return answer->number = KV_MEMORY;
    }
    *handle = made;
    return KV_OK;
}

uint32_t kv_allows(const kv_kernel *handle, uint32_t options, const kv_range *range, const kv_argument *arguments, size_t arguments_n,
                   kv_answer *answer) {
    return kv_meets(handle->texts, handle->kernel_n, handle->texts + handle->kernel_n, handle->conditions_n,
                    handle->options | (options & KV_HELD), range, arguments, arguments_n, answer);
}

void kv_close(kv_kernel *handle) {
    free(handle);
}
