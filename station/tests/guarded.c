/* Stands between a program and the library, by -Wl,--wrap=beonasul_run,--wrap=beonasul_fresh: every call is made on copies of what the
   program lends. A copy begins right behind a page that cannot be touched, or ends right before one; a call is made both ways. Words and
   bytes can only be read, and the stack holds other bytes each time. A touch outside ends the program by a signal. It ends with status 1
   and a reason if a byte beside a copy has changed, if the two ways give different results, or if a call of one record has changed output
   or store that it must leave alone. */
#define _DEFAULT_SOURCE
#include "guarded.h"
#include <beonasul.h>
#include <stdio.h>
#include <stdlib.h>
#include <sys/mman.h>

enum { PAGE = 4096, MARK = 0xa5, STACK = 65536 };

/* The functions as the machine has them: a result of more than 16 bytes is written to a place that the caller names first. So the place
   can lie beside a guard page too. */
beonasul_reply *__real_beonasul_run(beonasul_reply *, beonasul_context *, uint8_t *, size_t, const uint32_t *, size_t, const uint8_t *,
                                    size_t, float *, size_t);
beonasul_reply *__wrap_beonasul_run(beonasul_reply *, beonasul_context *, uint8_t *, size_t, const uint32_t *, size_t, const uint8_t *,
                                    size_t, float *, size_t);
beonasul_context *__real_beonasul_fresh(beonasul_context *);
beonasul_context *__wrap_beonasul_fresh(beonasul_context *);

int planted_fault;

static void must(bool holds, const char *otherwise)
{
    if (holds)
        return;
    fflush(stdout);
    fprintf(stderr, "guarded: %s\n", otherwise);
    exit(1);
}

/* ---- an area: a guard page, pages with the copy, a guard page */

typedef struct { uint8_t *pages, *copy; size_t pages_len, len; } area;

static area lend(const void *from, size_t len, bool at_end)
{
    area a;
    a.len = len;
    a.pages_len = (len + PAGE - 1) / PAGE * PAGE;
    uint8_t *map = (uint8_t *)mmap(NULL, a.pages_len + 2 * PAGE, PROT_NONE, MAP_PRIVATE | MAP_ANONYMOUS, -1, 0);
    must(map != MAP_FAILED, "no memory");
    a.pages = map + PAGE;
    must(a.pages_len == 0 || mprotect(a.pages, a.pages_len, PROT_READ | PROT_WRITE) == 0, "no page can be made to be written");
    a.copy = at_end ? a.pages + (a.pages_len - len) : a.pages;
    memset(a.pages, MARK, (size_t)(a.copy - a.pages));
    memcpy(a.copy, from, len);
    memset(a.copy + len, MARK, a.pages_len - len - (size_t)(a.copy - a.pages));
    return a;
}

static void make_read_only(const area *a)
{
    must(a->pages_len == 0 || mprotect(a->pages, a->pages_len, PROT_READ) == 0, "no page can be made read-only");
}

/* The bytes beside the copy are as they were. */
static void check_beside(const area *a)
{
    for (const uint8_t *p = a->pages; p < a->pages + a->pages_len; p++)
        must((p >= a->copy && p < a->copy + a->len) || *p == MARK, "a byte beside what was lent has changed");
}

static void give_back(area *a, void *to)
{
    if (to != NULL)
        memcpy(to, a->copy, a->len);
    munmap(a->pages - PAGE, a->pages_len + 2 * PAGE);
}

/* ---- one way of a call */

/* Fills what is below on the stack, where the call will lie. A result that hangs on bytes that nobody wrote is then another one. */
static void fill_stack(int byte)
{
    uint8_t below[STACK];
    memset(below, byte, sizeof below);
    __asm__ volatile("" : : "r"(below) : "memory"); /* the bytes count as read */
}

/* A byte that is on the stack below all that a call uses. */
static uint8_t left_on_stack(void)
{
    uint8_t below[STACK - PAGE];
    __asm__ volatile("" : "=m"(below)); /* the bytes count as written */
    return below[0];
}

static void plant(area *lent, int fault)
{
    if (fault == OUT_CHANGED)
        lent[OUT].copy[0] ^= 1;
    else if (fault == STORE_CHANGED)
        lent[STORE].copy[0] ^= 1;
    else if (fault == STACK_READ)
        ((beonasul_reply *)lent[REPLY].copy)->made = left_on_stack();
    else if (fault >= WRITE && (fault - WRITE == WORDS || fault - WRITE == BYTES))
        lent[fault - WRITE].copy[0] = 0;
    else if (fault >= WRITE)
        lent[fault - WRITE].copy[lent[fault - WRITE].len] = 0;
    else if (fault >= READ_BEHIND)
        (void)*(volatile uint8_t *)(lent[fault - READ_BEHIND].copy + lent[fault - READ_BEHIND].len);
    else if (fault >= READ_BEFORE)
        (void)*(volatile uint8_t *)(lent[fault - READ_BEFORE].copy - 1);
}

static void run_on_copies(area *lent, void *const *from, const size_t *len, bool at_end)
{
    for (int i = 0; i < AREAS; i++)
        lent[i] = lend(from[i], len[i], at_end);
    make_read_only(&lent[WORDS]);
    make_read_only(&lent[BYTES]);
    fill_stack(at_end ? 0xff : 0);
    __real_beonasul_run((beonasul_reply *)lent[REPLY].copy, (beonasul_context *)lent[CONTEXT].copy, lent[STORE].copy, len[STORE],
                        (const uint32_t *)lent[WORDS].copy, len[WORDS] / 4, lent[BYTES].copy, len[BYTES], (float *)lent[OUT].copy,
                        len[OUT] / 4);
    plant(lent, planted_fault);
    for (int i = 0; i < AREAS; i++)
        check_beside(&lent[i]);
}

/* ---- what a call must leave alone, and that it gives the same again */

static bool is_same(const area *a, const void *before, size_t at)
{
    return memcmp(a->copy + at, (const uint8_t *)before + at, a->len - at) == 0;
}

/* For a list of one record: a refused call, or one that uploads nothing, leaves the store; one that draws nothing the output, a draw all
   behind its triangles. */
static void check_left_alone(const area *lent, void *const *from, const uint32_t *words, size_t words_len)
{
    if (words_len < 2 || words_len != 2 + (size_t)words[1])
        return;
    const beonasul_reply *reply = (const beonasul_reply *)lent[REPLY].copy;
    const bool uploads = words[0] == BEONASUL_RECORD_BUFFER_DATA || words[0] == BEONASUL_RECORD_BUFFER_SUB_DATA;
    const size_t drawn = words[0] >= BEONASUL_RECORD_DRAW_LIST ? reply->value * sizeof(beonasul_triangle) : 0;
    must(reply->number == 0 || reply->value == 0, "a refused call has a value");
    must(drawn <= lent[OUT].len, "more triangles than the output holds");
    must(is_same(&lent[OUT], from[OUT], drawn), "output has changed that no triangle stands in");
    must((uploads && reply->number == 0) || is_same(&lent[STORE], from[STORE], 0), "the store has changed");
}

/* The bytes between the fields of a context, which are nobody's: three behind each bool, those behind the mode. */
static void clear_between(uint8_t *context)
{
    static const size_t bools[] = {
        offsetof(beonasul_context, arrays.vertex.enabled), offsetof(beonasul_context, arrays.color.enabled),
        offsetof(beonasul_context, arrays.normal.enabled), offsetof(beonasul_context, arrays.texcoord[0].enabled),
        offsetof(beonasul_context, arrays.texcoord[1].enabled), offsetof(beonasul_context, arrays.texcoord[2].enabled),
        offsetof(beonasul_context, arrays.texcoord[3].enabled), offsetof(beonasul_context, settings.units[0].enabled),
        offsetof(beonasul_context, settings.units[1].enabled), offsetof(beonasul_context, settings.units[2].enabled),
        offsetof(beonasul_context, settings.units[3].enabled), offsetof(beonasul_context, settings.depth_test),
        offsetof(beonasul_context, settings.alpha_test), offsetof(beonasul_context, settings.blend),
        offsetof(beonasul_context, settings.cull), offsetof(beonasul_context, settings.fog),
    };
    const size_t end = offsetof(beonasul_context, mode) + sizeof(uint32_t);
    for (size_t i = 0; i < sizeof bools / sizeof *bools; i++)
        memset(context + bools[i] + 1, 0, 3);
    memset(context + end, 0, sizeof(beonasul_context) - end);
}

static void check_same(const area *a, const area *b)
{
    const beonasul_reply *x = (const beonasul_reply *)a[REPLY].copy, *y = (const beonasul_reply *)b[REPLY].copy;
    clear_between(a[CONTEXT].copy);
    clear_between(b[CONTEXT].copy);
    must(is_same(&a[CONTEXT], b[CONTEXT].copy, 0), "two calls on the same leave other contexts");
    must(x->number == y->number && x->value == y->value && x->made == y->made, "two calls on the same have other replies");
    must(is_same(&a[STORE], b[STORE].copy, 0) && is_same(&a[OUT], b[OUT].copy, 0), "two calls on the same write other bytes");
}

beonasul_reply *__wrap_beonasul_run(beonasul_reply *reply, beonasul_context *context, uint8_t *store, size_t store_len,
                                    const uint32_t *words, size_t words_len, const uint8_t *bytes, size_t bytes_len, float *out,
                                    size_t out_len)
{
    void *const from[AREAS] = { reply, context, store, (void *)words, (void *)bytes, out };
    const size_t len[AREAS] = { sizeof *reply, sizeof *context, store_len, 4 * words_len, bytes_len, 4 * out_len };
    area at_start[AREAS], at_end[AREAS];
    run_on_copies(at_start, from, len, false);
    run_on_copies(at_end, from, len, true);
    check_same(at_start, at_end);
    check_left_alone(at_end, from, words, words_len);
    for (int i = 0; i < AREAS; i++) {
        give_back(&at_start[i], NULL);
        give_back(&at_end[i], i == WORDS || i == BYTES ? NULL : from[i]);
    }
    return reply;
}

/* It writes every field, whatever the place held before, and nothing beside it. */
beonasul_context *__wrap_beonasul_fresh(beonasul_context *context)
{
    area a[2];
    for (int at_end = 0; at_end < 2; at_end++) {
        a[at_end] = lend(context, sizeof *context, at_end);
        memset(a[at_end].copy, at_end ? 0xff : 0, sizeof *context);
        fill_stack(at_end ? 0xff : 0);
        __real_beonasul_fresh((beonasul_context *)a[at_end].copy);
        check_beside(&a[at_end]);
        clear_between(a[at_end].copy);
    }
    must(is_same(&a[0], a[1].copy, 0), "two fresh contexts differ");
    give_back(&a[0], NULL);
    give_back(&a[1], context);
    return context;
}
