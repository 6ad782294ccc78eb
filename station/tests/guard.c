/* guard SEED COUNT: first that guarded.c sees every planted fault, then COUNT lists of random records, or of words that are none, on
   contexts that are sound or not, with stores and outputs of many lengths: no byte is touched outside what was lent. To be linked with
   guarded.c. It prints what the lists came to; exit status 1 if a fault is not seen or a kind of list never came. */
#define _POSIX_C_SOURCE 200809L
#include "guarded.h"
#include <beonasul.h>
#include <signal.h>
#include <stdio.h>
#include <stdlib.h>
#include <sys/wait.h>
#include <unistd.h>

enum { BASE = 4096, LIST = 256, GUEST = 200, ROOM = 612 };

/* The records: a letter for each word, below. */
static const struct { uint32_t code; const char *kinds; } forms[] = {
    { 0x10, "e" }, { 0x11, "" }, { 0x12, "ffffffffffffffff" }, { 0x13, "ffffffffffffffff" }, { 0x14, "" }, { 0x15, "" },
    { 0x16, "fff" }, { 0x17, "fff" }, { 0x18, "fffff" }, { 0x1a, "ffffff" }, { 0x1b, "ffffff" },
    { 0x20, "i0" }, { 0x21, "bi" }, { 0x22, "iii" }, { 0x23, "bi0e00L" }, { 0x24, "bi00L" },
    { 0x30, "stia" }, { 0x31, "stia" }, { 0x32, "tia" }, { 0x33, "stia" }, { 0x34, "vw" }, { 0x35, "i" }, { 0x36, "ffff" },
    { 0x37, "eff" }, { 0x40, "i" }, { 0x41, "ew" }, { 0x42, "ee" }, { 0x43, "ffff" }, { 0x44, "e" }, { 0x45, "ef" }, { 0x46, "ee" },
    { 0x47, "e" }, { 0x48, "e" }, { 0x49, "ef" }, { 0x4a, "ff" }, { 0x50, "" },
    { 0x60, "mkOg00Liiiiii" }, { 0x61, "mkOg00Lii" }, { 0x62, "mkOg00Lita" },
};
static const uint32_t enumerants[] = { 0x1700, 0x1701, 0x1702, 0x0B44, 0x0B60, 0x0B71, 0x0BC0, 0x0BE2, 0x0DE1, 0x2200, 0x2100, 0x0201,
                                       0x0302, 0x0404, 0x0901, 0x0B62, 0x0B65, 0x0801, 0x84C0, 0x84C3, 0x4008 };
static const uint32_t odd[] = { 0, 1, 4, 15, 16, 17, 255, 4096, 4097, 65535, 65536, 0x7f800000, 0x7fc00000, 0x7fffffff, 0x80000000,
                                0xfffffffe, 0xffffffff };

static uint64_t state;
static uint32_t bytes_len, out_len;
static uint8_t guest[GUEST];
static uint8_t store[BEONASUL_STORE_BYTES + 1];
static float out[ROOM];

static uint32_t below(uint32_t n)
{
    state ^= state << 13;
    state ^= state >> 7;
    state ^= state << 17;
    return (uint32_t)(state >> 32) % n;
}

#define ONE_OF(array) (array)[below(sizeof(array) / sizeof *(array))]

/* A word of a kind, mostly one that the calls accept. */
static uint32_t word_of(char kind)
{
    if (below(40) == 0)
        return below(2) ? ONE_OF(odd) : below(0xffffffff);
    switch (kind) {
    case 'a': return BASE + below(8);
    case 'b': return BEONASUL_ARRAY_BUFFER + below(2);
    case 'e': return ONE_OF(enumerants);
    case 'f': return 0x3f800000 + below(0x1000000);
    case 'g': return BASE;
    case 'i': return below(6);
    case 'k': return below(16);
    case 'm': return BEONASUL_TRIANGLES + below(3);
    case 's': return 2 + below(3);
    case 't': return BEONASUL_BYTE + below(4);
    case 'v': return BEONASUL_VERTEX_ARRAY + below(5);
    case 'w': return below(8) != 0;
    default: return 0;
    }
}

/* Puts a record at `at`; answers how many words it has. */
static size_t put_record(uint32_t *at)
{
    const size_t form = below(3) ? below(sizeof forms / sizeof *forms) : sizeof forms / sizeof *forms - 1 - below(3); /* many draws */
    size_t n = 2;
    at[0] = forms[form].code;
    for (const char *kind = forms[form].kinds; *kind != 0; kind++) {
        at[n++] = *kind == 'O' ? out_len : *kind == 'L' ? bytes_len : word_of(*kind);
        if (*kind == 'O' || *kind == 'L')
            at[n++] = below(40) ? 0 : ONE_OF(odd);
    }
    at[1] = (uint32_t)(n - 2);
    return n;
}

/* A list of one to five records; one in ten has a word changed or ends too soon. */
static size_t make_list(uint32_t *words)
{
    size_t n = 0;
    for (uint32_t records = 1 + below(5); records > 0; records--)
        n += put_record(words + n);
    switch (below(20)) {
    case 0: words[below((uint32_t)n)] = ONE_OF(odd); break;
    case 1: n -= 1 + below((uint32_t)n); break;
    }
    return n;
}

/* Puts a number into the context that need not be one of a sound context. */
static void spoil(beonasul_context *c)
{
    uint32_t *const places[] = { &c->mode, &c->buffers.slots[0].name, &c->buffers.slots[1].name, &c->buffers.slots[15].len,
                                 &c->buffers.slots[0].len, &c->buffers.next, &c->buffers.array_buffer, &c->buffers.element_buffer,
                                 &c->arrays.vertex.size, &c->arrays.vertex.ty, &c->arrays.vertex.stride, &c->arrays.vertex.pointer,
                                 &c->arrays.vertex.buffer, &c->arrays.color.buffer, &c->arrays.client_active_texture,
                                 &c->settings.active_texture, &c->settings.units[3].env_mode, &c->settings.depth_func,
                                 &c->settings.src, &c->settings.fog_mode, &c->error };
    size_t *const depths[] = { &c->stacks.modelview.depth, &c->stacks.projection.depth, &c->stacks.texture.depth };
    if (below(4) == 0)
        *ONE_OF(depths) = below(2) ? ONE_OF(odd) : (size_t)-1 - below(3);
    else
        *ONE_OF(places) = ONE_OF(odd);
}

/* ---- the planted faults */

/* A pop on a fresh context, which is refused, with something lent of each kind. */
static void pop_refused(void)
{
    static const uint32_t words[2] = { BEONASUL_RECORD_POP, 0 };
    beonasul_context c = beonasul_fresh();
    const beonasul_reply r = beonasul_run(&c, store, BEONASUL_STORE_BYTES, words, 2, guest, GUEST, out, ROOM);
    exit(r.number == BEONASUL_STACK_UNDERFLOW ? 0 : 2);
}

static int status_with(int fault)
{
    int status;
    fflush(stdout);
    const pid_t child = fork();
    if (child == 0) {
        planted_fault = fault;
        if (fault != 0 && freopen("/dev/null", "w", stderr) == NULL)
            exit(2);
        pop_refused();
    }
    if (child < 0 || waitpid(child, &status, 0) != child)
        exit(2);
    return status;
}

static bool is_seen(int status)
{
    return (WIFSIGNALED(status) && WTERMSIG(status) == SIGSEGV) || (WIFEXITED(status) && WEXITSTATUS(status) == 1);
}

static int plant_faults(void)
{
    int unseen = status_with(0) != 0;
    if (unseen)
        puts("guard: the call without a fault does not pass");
    for (int fault = 1; fault < FAULTS; fault++)
        if (!is_seen(status_with(fault))) {
            printf("guard: planted fault %d is not seen\n", fault);
            unseen++;
        }
    printf("guard: %d planted faults, %s\n", FAULTS - 1, unseen ? "not all seen" : "all seen");
    return unseen;
}

/* ---- the lists */

static struct { unsigned long lists, calls, drawn, triangles, no_record, not_sound, short_output; } came;

static void count(const uint32_t *words, size_t words_len, beonasul_reply r)
{
    const bool draws = words_len > 2 && words_len == 2 + (size_t)words[1] && words[0] >= BEONASUL_RECORD_DRAW_LIST;
    came.lists++;
    came.calls += r.made;
    came.drawn += draws && r.number == BEONASUL_DONE && r.value > 0;
    came.triangles += draws ? r.value : 0;
    came.no_record += r.number == BEONASUL_NO_RECORD;
    came.not_sound += r.number == BEONASUL_NOT_SOUND;
    came.short_output += r.number == BEONASUL_OUTPUT_TOO_SHORT;
}

/* A context on which a draw of few indices is accepted. */
static beonasul_context opened(void)
{
    static const uint32_t words[10] = { BEONASUL_RECORD_VERTEX_POINTER, 4, 2, BEONASUL_BYTE, 0, BASE,
                                        BEONASUL_RECORD_CLIENT_STATE, 2, BEONASUL_VERTEX_ARRAY, 1 };
    beonasul_context c = beonasul_fresh();
    beonasul_run(&c, store, BEONASUL_STORE_BYTES, words, 10, guest, 0, out, 0);
    return c;
}

static void run_lists(unsigned long lists)
{
    static beonasul_context c;
    uint32_t words[LIST];
    for (unsigned long i = 0; i < lists; i++) {
        if (i % 20 == 0)
            c = opened();
        bytes_len = below(4) ? GUEST : below(GUEST + 1);
        out_len = below(4) ? ROOM : below(ROOM + 1);
        const size_t n = make_list(words);
        const size_t store_len = below(16) ? BEONASUL_STORE_BYTES : below(2) ? BEONASUL_STORE_BYTES + 1 : below(BEONASUL_STORE_BYTES);
        beonasul_context other = c;
        beonasul_context *used = below(8) ? &c : &other;
        if (used == &other)
            spoil(used);
        count(words, n, beonasul_run(used, store, store_len, words, n, guest, bytes_len, out, out_len));
    }
}

int main(int argc, char **argv)
{
    if (argc != 3) {
        fputs("usage: guard SEED COUNT\n", stderr);
        return 2;
    }
    state = 0x9e3779b97f4a7c15u ^ strtoul(argv[1], NULL, 10);
    for (size_t i = 0; i < GUEST; i++)
        guest[i] = (uint8_t)below(256);
    if (plant_faults() != 0)
        return 1;
    run_lists(strtoul(argv[2], NULL, 10));
    printf("guard: %lu lists, %lu calls, %lu triangles in %lu single draws; %lu lists end in no record, %lu with 1, %lu with 11\n",
           came.lists, came.calls, came.triangles, came.drawn, came.no_record, came.not_sound, came.short_output);
    return came.drawn > 0 && came.no_record > 0 && came.not_sound > 0 && came.short_output > 0 ? 0 : 1;
}
