/* The functions by which the engine allocates, over those of grain.h. Each block counts for the budget that was in use when it
 * was taken: it stands behind 16 bytes that keep its size and the number of that budget. A block may outlive its budget, as the
 * program does that states share. So it has a number, and no pointer. */
#include "budget.h"
#include "grain.h"
#include "kit.h"

typedef struct {
    size_t size;
    uint64_t number;
} mark;

static _Atomic uint64_t last_number;
static _Thread_local budget *in_use;

budget new_budget(size_t most) {
    return (budget){++last_number, 0, most};
}

void use_budget(budget *next) {
    in_use = next;
}

static mark *mark_of(void *block) {
    return (mark *)block - 1;
}

/* Whether the budget in use allows this many bytes more, which are then taken. */
static bool charge(size_t size) {
    if (in_use == NULL)
        return true;
    if (size > in_use->most - in_use->taken)
        return false;
    in_use->taken += size;
    return true;
}

static void discharge(size_t size) {
    if (in_use != NULL)
        in_use->taken -= size;
}

static bool is_in_use(uint64_t number) {
    return in_use != NULL && in_use->number == number;
}

void *take_block(size_t size, size_t alignment) {
    if (size > SIZE_MAX - sizeof(mark))
        return NULL;
    size_t whole = size + sizeof(mark);
    if (!charge(whole))
        return NULL;
    (void)alignment; /* at most that of a mark's size */
    mark *made = grain_alloc(whole, sizeof(mark));
    if (made == NULL) {
        discharge(whole);
        return NULL;
    }
    *made = (mark){whole, in_use != NULL ? in_use->number : 0};
    return made + 1;
}

void free_block(void *block) {
    mark *made = mark_of(block);
    if (is_in_use(made->number))
        discharge(made->size);
    grain_dealloc(made);
}

answer rattle_alloc(size_t size, size_t alignment) {
    return answer_of(take_block(size, alignment));
}

answer rattle_realloc(void *block, size_t old_size, size_t size, size_t alignment) {
    (void)old_size;
    (void)alignment;
    mark *old = mark_of(block);
    mark kept = *old;
    if (size > SIZE_MAX - sizeof(mark))
        return answer_of(NULL);
    size_t whole = size + sizeof(mark);
    bool counts = is_in_use(kept.number);
    if (counts && whole > kept.size && !charge(whole - kept.size))
        return answer_of(NULL);
    mark *made = grain_realloc(old, kept.size, whole, sizeof(mark));
    if (made == NULL) {
        if (counts && whole > kept.size)
            discharge(whole - kept.size);
        return answer_of(NULL);
    }
    if (counts && whole < kept.size)
        discharge(kept.size - whole);
    *made = (mark){whole, kept.number};
    return answer_of(made + 1);
}

void rattle_dealloc(void *block) {
    free_block(block);
}
