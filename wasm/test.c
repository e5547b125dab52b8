/* Tries the heap, the calls for memory, the whole numbers of 128 bits and the copying of bytes as a program of this machine, whose
 * compiler has such numbers and such copying of its own. A line tells each case that fails; the last line counts. */
#include "heap.c"
#include "moves.c"
#include "runtime.c"
#include "wide.h"

/* What bytes.c has, by names of its own here. */
#define memcpy own_copy
#define memmove own_move
#define memset own_set
#define memcmp own_compare
#define bcmp own_compare_bytes
#include "bytes.c"
#undef memcpy
#undef memmove
#undef memset
#undef memcmp
#undef bcmp

#include <stdint.h>
#include <stdio.h>
#include <string.h>

enum { ROOM = 1 << 24, HELD = 400 };

static _Alignas(16) unsigned char room[ROOM];
static size_t allowed = ROOM, reached;
static int passed, failed;

unsigned char *memory_begin(void)
{
    return room;
}

int memory_reach(const unsigned char *to)
{
    size_t due = (size_t)(to - room);
    if (due > allowed)
        return 0;
    if (due > reached)
        reached = due;
    return 1;
}

static void holds(int is_well, const char *name)
{
    passed += is_well;
    failed += !is_well;
    if (!is_well)
        printf("%s\n", name);
}

/* Numbers drawn by chance, the same in each run. */
static uint64_t drawn(void)
{
    static uint64_t state = 88172645463325252u;
    state ^= state << 13;
    state ^= state >> 7;
    state ^= state << 17;
    return state;
}

static positive_wide drawn_wide(void)
{
    positive_wide whole = drawn();
    whole = whole << 64 | drawn();
    uint64_t count = drawn() % 128;
    return whole >> count;
}

static void pair_is_right(wide a, wide b)
{
    positive_wide c = (positive_wide)a, d = (positive_wide)b;
    holds((positive_wide)__multi3(a, b) == c * d, "a product is wrong");
    if (b == 0)
        return;
    holds(__udivti3(c, d) == c / d && __umodti3(c, d) == c % d, "a quotient of numbers that aren't negative is wrong");
    /* The least number by -1 has no quotient. */
    if (b == -1 && a == (wide)((positive_wide)1 << 127))
        return;
    holds(__divti3(a, b) == a / b && __modti3(a, b) == a % b, "a quotient is wrong");
}

static void shifts_are_right(wide a)
{
    for (int count = 0; count < 128; count++) {
        holds((positive_wide)__ashlti3(a, count) == (positive_wide)a << count, "a number moved up is wrong");
        holds((positive_wide)__lshrti3(a, count) == (positive_wide)a >> count, "a number moved down is wrong");
        holds(__ashrti3(a, count) == a >> count, "a number with a sign moved down is wrong");
    }
}

static void numbers(void)
{
    wide edges[200];
    int count = 0;
    for (int power = 0; power < 128; power += power % 32 == 31 || power % 32 == 0 ? 1 : 30)
        for (int more = -1; more <= 1; more++)
            edges[count++] = (wide)(((positive_wide)1 << power) + (positive_wide)more);
    for (int first = 0; first < count; first++) {
        shifts_are_right(edges[first]);
        for (int second = 0; second < count; second++)
            pair_is_right(edges[first], edges[second]);
    }
    for (int round = 0; round < 20000; round++) {
        wide first = (wide)drawn_wide();
        pair_is_right(first, (wide)drawn_wide());
    }
}

/* Whether the blocks lie side by side from the first place to the end, none free beside a free one, and each free one in its list. */
static int is_whole(void)
{
    uint32_t size_before = 0, listed = 0, free_ones = 0;
    int was_free = 0;
    for (place where = FIRST; where < end; where += at(where)->size) {
        Block *block = at(where);
        if (!block->size || block->before != size_before || (was_free && block->is_free))
            return 0;
        size_before = block->size;
        was_free = block->is_free;
        free_ones += block->is_free;
    }
    if (end && (was_free || at(end)->before != size_before || at(end)->is_free))
        return 0;
    for (unsigned class = 0; class < CLASSES; class++) {
        if (!lists[class] != !(has_any[class / 64] >> class % 64 & 1))
            return 0;
        for (place where = lists[class]; where; where = at(where)->next, listed++)
            if (!at(where)->is_free || class_of(at(where)->size) != class)
                return 0;
    }
    return listed == free_ones;
}

typedef struct {
    unsigned char *bytes;
    size_t length;
    unsigned char sign;
} Held;

static void fill(Held *held)
{
    held->sign = (unsigned char)drawn();
    memset(held->bytes, held->sign, held->length);
}

static int is_as_it_was(const Held *held, size_t length)
{
    for (size_t byte = 0; byte < length; byte++)
        if (held->bytes[byte] != held->sign)
            return 0;
    return (uintptr_t)held->bytes % 16 == 0;
}

/* Mostly small sizes, and a few large ones. */
static size_t drawn_size(void)
{
    uint64_t powers = 4 + drawn() % 12;
    return 1 + drawn() % ((size_t)1 << powers);
}

/* One step with a block: it is taken, made larger or smaller, or given back. */
static void step(Held *held, size_t length)
{
    if (!held->bytes) {
        held->bytes = heap_take(length);
        held->length = held->bytes ? length : 0;
        if (held->bytes)
            fill(held);
        return;
    }
    holds(is_as_it_was(held, held->length), "a block's bytes changed");
    if (drawn() % 2) {
        heap_give(held->bytes);
        held->bytes = 0;
        return;
    }
    unsigned char *moved = heap_resize(held->bytes, length);
    if (!moved) {
        holds(is_as_it_was(held, held->length), "a block that couldn't be resized changed");
        return;
    }
    held->bytes = moved;
    holds(is_as_it_was(held, length < held->length ? length : held->length), "a resized block's bytes changed");
    held->length = length;
    fill(held);
}

/* Steps with many blocks at once, and then all of them given back. Says how much was held at most. */
static size_t work(int steps, int is_checked)
{
    static Held all[HELD];
    size_t held = 0, most = 0;
    for (int count = 0; count < steps; count++) {
        Held *one = &all[drawn() % HELD];
        held -= one->bytes ? one->length : 0;
        step(one, drawn_size());
        held += one->bytes ? one->length : 0;
        most = held > most ? held : most;
        if (is_checked && count % 16 == 0)
            holds(is_whole(), "the blocks aren't side by side, or their lists are wrong");
    }
    for (int count = 0; count < HELD; count++) {
        if (all[count].bytes)
            heap_give(all[count].bytes);
        all[count].bytes = 0;
    }
    holds(is_whole(), "the blocks aren't side by side, or their lists are wrong, once all are given back");
    holds(end <= FIRST, "all blocks were given back, and the heap isn't empty");
    return most;
}

static void use(void)
{
    size_t most = work(20000, 1);
    holds(reached < most + most / 2, "more than half of what is held is wasted besides");
    size_t first = reached;
    for (int round = 0; round < 20; round++)
        work(20000, 0);
    holds(reached < first + first / 8, "what is given back isn't used again");
}

static void growth(void)
{
    unsigned char *below = heap_take(100), *block = heap_take(100), *grown = block;
    memset(block, 7, 100);
    for (size_t length = 200; length < ROOM / 4; length *= 2)
        grown = heap_resize(grown, length);
    holds(grown == block && block[99] == 7, "a block at the end of memory doesn't grow in place");
    unsigned char *above = heap_take(100);
    heap_give(below);
    grown = heap_resize(block, ROOM / 4 + 50);
    holds(grown != block && grown[99] == 7, "a block that can't grow in place isn't moved");
    grown = heap_resize(grown, 10);
    unsigned char *rest = heap_take(1000);
    holds(rest < above, "the rest of a block made smaller isn't used again");
    unsigned char *lower = heap_resize(rest, 2000);
    holds(lower == rest, "a block doesn't grow in place over what is free behind it");
    lower = heap_take(1000);
    unsigned char *beside = heap_take(1000);
    heap_give(rest);
    memset(lower, 8, 1000);
    unsigned char *moved = heap_resize(lower, 2500);
    holds(moved == rest && moved[999] == 8, "a block isn't moved down onto what is free before it");
    heap_give(moved);
    heap_give(beside);
    heap_give(grown);
    heap_give(above);
    holds(end <= FIRST && is_whole(), "all blocks were given back, and the heap isn't empty");
}

static void refusals(void)
{
    static const size_t too_large[] = {~(size_t)0, ~(size_t)0 - 8, (size_t)1 << 62, (size_t)1 << 40, (size_t)1 << 34, ROOM};
    unsigned char *block = heap_take(50);
    memset(block, 9, 50);
    for (size_t row = 0; row < sizeof too_large / sizeof *too_large; row++) {
        holds(!heap_take(too_large[row]), "there is a block larger than memory");
        holds(!heap_resize(block, too_large[row]) && block[49] == 9, "a block became larger than memory");
    }
    heap_give(block);
    for (allowed = 0; allowed < 200000; allowed += allowed < 4096 ? 8 : 1024)
        work(300, 1);
    allowed = ROOM;
    holds(heap_take(1) != 0, "there is no memory once it may grow again");
}

enum { AROUND = 24, LENGTHS = 1200 };

static unsigned char given[LENGTHS + 2 * AROUND], made[LENGTHS + 2 * AROUND], due[LENGTHS + 2 * AROUND];

/* Both ways' bytes, with what lies around them, are to be the same. */
static void begin_bytes(void)
{
    for (size_t at = 0; at < sizeof given; at++) {
        given[at] = (unsigned char)drawn();
        due[at] = made[at] = (unsigned char)drawn();
    }
}

static void end_bytes(const char *name)
{
    holds(!memcmp(made, due, sizeof due), name);
}

static int sign_of(int number)
{
    return (number > 0) - (number < 0);
}

static void bytes_are_right(size_t length, size_t from, size_t to)
{
    begin_bytes();
    holds(own_copy(made + to, given + from, length) == made + to, "a copy isn't where it was due");
    memcpy(due + to, given + from, length);
    end_bytes("copied bytes are wrong");
    holds(own_move(made + to, made + from, length) == made + to, "what was moved isn't where it was due");
    memmove(due + to, due + from, length);
    end_bytes("moved bytes are wrong");
    holds(own_set(made + to, (int)length, length) == made + to, "what was set isn't where it was due");
    memset(due + to, (int)length, length);
    end_bytes("set bytes are wrong");
    copy_bytes(made + to, given + from, length);
    memcpy(due + to, given + from, length);
    end_bytes("bytes that a small function copies are wrong");
    clear_bytes(made + to, length);
    memset(due + to, 0, length);
    end_bytes("bytes that a small function clears are wrong");
    memcpy(made + to, given + from, length);
    holds(!own_compare(made + to, given + from, length), "equal bytes aren't the same");
    if (length)
        made[to + drawn() % length] ^= (unsigned char)(1 << drawn() % 8);
    holds(sign_of(own_compare(made + to, given + from, length)) == sign_of(memcmp(made + to, given + from, length)), "bytes are compared wrongly");
    holds(!own_compare_bytes(made + to, given + from, length) == !memcmp(made + to, given + from, length), "bytes are the same wrongly");
}

static void bytes(void)
{
    for (size_t length = 0; length < LENGTHS; length += length < 70 ? 1 : 1 + drawn() % 60)
        for (size_t from = 0; from < AROUND; from += 1 + drawn() % 3)
            for (size_t to = 0; to < AROUND; to++)
                bytes_are_right(length, from, to);
}

static int is_given(void)
{
    Tried block = rattle_alloc(8, 8);
    if (block.is_there)
        rattle_dealloc(block.where);
    return block.is_there != 0;
}

/* A module for tests refuses the call for memory that it was told to refuse, and no other. */
static void refused_calls(void)
{
    Tried block = rattle_alloc(8, 8);
    memset(block.where, 7, 8);
    for (uint64_t number = 0; number < 4; number++) {
        refuse_call(number);
        for (uint64_t call = 0; call < 8; call++)
            holds(is_given() == (call != number), "another call for memory is refused than was told");
    }
    refuse_call(0);
    holds(!rattle_realloc(block.where, 8, 64, 8).is_there && ((unsigned char *)block.where)[7] == 7, "a refused call changed its block");
    rattle_dealloc(block.where);
}

int main(void)
{
    numbers();
    bytes();
    use();
    growth();
    refusals();
    refused_calls();
    printf("heap, moves, runtime, wide and bytes: %d passed, %d failed\n", passed, failed);
    return failed != 0;
}
