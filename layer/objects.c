/* objects.c: what the program made, by its handle.
 *
 * One table has programs, kernels and buffers: a handle is a pointer, so no two of them that are there at once have one. References are
 * counted as the program counts them. What it let go is forgotten before OpenCL can give the handle to something else. */
#include "layer.h"

#define PLACES 65536u
static struct object *places[PLACES];

static struct object **place_of(const void *handle) {
    return &places[((uint64_t)(uintptr_t)handle * 11400714819323198485u >> 32) % PLACES];
}

struct object *object_find(const void *handle, enum object_kind kind) {
    struct object *object = *place_of(handle);
    while (object && (object->handle != handle || object->kind != kind)) object = object->next;
    return object;
}

static void forget(struct object *object) {
    if (object->kind == OBJECT_PROGRAM) {
        struct program *program = (struct program *)object;
        free(program->options);
        text_free(&program->defines);
        text_free(&program->why);
    } else if (object->kind == OBJECT_KERNEL) {
        free(((struct kernel *)object)->arguments);
    }
    free(object);
}

void object_keep(struct object *object, const void *handle, enum object_kind kind) {
    object->kind = kind;
    object->handle = handle;
    object->references = 1;
    object->next = *place_of(handle);
    *place_of(handle) = object;
}

void object_retain(const void *handle, enum object_kind kind) {
    struct object *object = object_find(handle, kind);
    if (object) object->references++;
}

void object_release(const void *handle, enum object_kind kind) {
    struct object **link, *object = object_find(handle, kind);
    if (!object || --object->references) return;
    for (link = place_of(handle); *link != object; link = &(*link)->next) continue;
    *link = object->next;
    forget(object);
}
