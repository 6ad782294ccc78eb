/* deck TRACE: makes the calls of a trace (docs/TRACE.md) and prints their answers, triangles and all, as the replay program does.
   It shows how a station makes each call. Records of what this boundary does not have are left out, with their answers: matrix stacks
   outside a context, dumps, and the store's bytes that no buffer holds. Exit status 1 at a record that cannot be read, with the reason. */
#include <beonasul.h>
#include <stdio.h>
#include <stdlib.h>

enum { RECORD_WORDS = 65600, GUEST_BYTES = 262144, OUT_FLOATS = 835584, LIST_WORDS = 16384 };

static uint32_t record[RECORD_WORDS], room[11 + LIST_WORDS];
static uint8_t store[BEONASUL_STORE_BYTES], guest[GUEST_BYTES];
static float out[OUT_FLOATS];
static struct beonasul g;

/* The calls: how many words a record has at least, and its name in the answers. */
static const struct { uint32_t code, words; const char *name; } calls[] = {
    { 0x10, 1, "MATRIX_MODE" }, { 0x11, 0, "LOAD_IDENTITY" }, { 0x12, 16, "LOAD" }, { 0x13, 16, "MULT" },
    { 0x14, 0, "PUSH" }, { 0x15, 0, "POP" }, { 0x16, 3, "TRANSLATE" }, { 0x17, 3, "SCALE" },
    { 0x18, 9, "ROTATE" }, { 0x19, 4, "ROTATE_ZERO" }, { 0x1a, 6, "FRUSTUM" }, { 0x1b, 6, "ORTHO" },
    { 0x20, 1, "GEN" }, { 0x21, 2, "BIND" }, { 0x22, 1, "DELETE" }, { 0x23, 5, "BUFFER_DATA" }, { 0x24, 3, "BUFFER_SUB_DATA" },
    { 0x30, 4, "VERTEX_POINTER" }, { 0x31, 4, "COLOR_POINTER" }, { 0x32, 3, "NORMAL_POINTER" }, { 0x33, 4, "TEXCOORD_POINTER" },
    { 0x34, 2, "CLIENT_STATE" }, { 0x35, 1, "CLIENT_UNIT" }, { 0x36, 4, "COLOR" }, { 0x37, 3, "MULTI_TEXCOORD" },
    { 0x40, 1, "ACTIVE_UNIT" }, { 0x41, 2, "CAPABILITY" }, { 0x42, 2, "TEX_ENV" }, { 0x43, 4, "TEX_ENV_COLOR" },
    { 0x44, 1, "DEPTH_FUNC" }, { 0x45, 2, "ALPHA_FUNC" }, { 0x46, 2, "BLEND_FUNC" }, { 0x47, 1, "CULL_FACE" },
    { 0x48, 1, "FRONT_FACE" }, { 0x49, 2, "FOG" }, { 0x4a, 2, "DEPTH_RANGE" }, { 0x50, 0, "TAKE_ERROR" },
    { 0x60, 4, "DRAW_LIST" }, { 0x61, 5, "DRAW_ARRAYS" }, { 0x62, 6, "DRAW_GUEST" },
};

static void stop(const char *reason)
{
    fflush(stdout);
    fprintf(stderr, "deck: %s\n", reason);
    exit(1);
}

/* A list of `count` words, or of bytes, begins at word `at` of a record of n words. */
static void must_hold(uint32_t n, uint32_t at, uint32_t count)
{
    if (n < at || count > n - at)
        stop("a record ends before its list");
}

static void must_hold_bytes(uint32_t n, uint32_t at, uint32_t bytes)
{
    must_hold(n, at, bytes / 4 + (bytes % 4 != 0));
}

static const uint8_t *bytes_of(const uint32_t *words)
{
    return (const uint8_t *)words;
}

/* ---- the calls, by group. w: the words, f: the same as f32 */

static uint32_t matrix_call(uint32_t code, const uint32_t *w, const float *f)
{
    switch (code) {
    case 0x10: return beonasul_set_matrix_mode(&g, w[0]);
    case 0x11: return beonasul_load_identity(&g);
    case 0x12: return beonasul_load_matrix(&g, f);
    case 0x13: return beonasul_mult_matrix(&g, f);
    case 0x14: return beonasul_push_matrix(&g);
    case 0x15: return beonasul_pop_matrix(&g);
    case 0x16: return beonasul_translate(&g, f[0], f[1], f[2]);
    case 0x17: return beonasul_scale(&g, f[0], f[1], f[2]);
    case 0x18: return beonasul_rotate_by(&g, f[0], f[1], f[2], f[3], f[4]);
    case 0x19: return beonasul_rotate(&g, f[0], f[1], f[2], f[3]);
    case 0x1a: return beonasul_frustum(&g, f[0], f[1], f[2], f[3], f[4], f[5]);
    default: return beonasul_ortho(&g, f[0], f[1], f[2], f[3], f[4], f[5]);
    }
}

static uint32_t buffer_call(uint32_t code, const uint32_t *w, uint32_t n)
{
    switch (code) {
    case 0x20: return beonasul_gen_buffers(&g, w[0]);
    case 0x21: return beonasul_bind_buffer(&g, w[0], w[1]);
    case 0x22: must_hold(n, 1, w[0]); return beonasul_delete_buffers(&g, w + 1, w[0]);
    case 0x23: must_hold_bytes(n, 5, w[4]); return beonasul_buffer_data(&g, w[0], w[1], bytes_of(w + 5), w[4], w[2]);
    default: must_hold_bytes(n, 3, w[2]); return beonasul_buffer_sub_data(&g, w[0], w[1], bytes_of(w + 3), w[2]);
    }
}

static uint32_t array_call(uint32_t code, const uint32_t *w, const float *f)
{
    switch (code) {
    case 0x30: return beonasul_set_vertex_pointer(&g, w[0], w[1], w[2], w[3]);
    case 0x31: return beonasul_set_color_pointer(&g, w[0], w[1], w[2], w[3]);
    case 0x32: return beonasul_set_normal_pointer(&g, w[0], w[1], w[2]);
    case 0x33: return beonasul_set_texcoord_pointer(&g, w[0], w[1], w[2], w[3]);
    case 0x34: return beonasul_set_client_state(&g, w[0], w[1] == 1);
    case 0x35: return beonasul_set_client_active_texture(&g, w[0]);
    case 0x36: return beonasul_set_color(&g, f[0], f[1], f[2], f[3]);
    default: return beonasul_set_multi_texcoord(&g, w[0], f[1], f[2]);
    }
}

static uint32_t setting_call(uint32_t code, const uint32_t *w, const float *f)
{
    switch (code) {
    case 0x40: return beonasul_set_active_texture(&g, w[0]);
    case 0x41: return beonasul_set_capability(&g, w[0], w[1] == 1);
    case 0x42: return beonasul_tex_env(&g, w[0], w[1]);
    case 0x43: return beonasul_set_tex_env_color(&g, f[0], f[1], f[2], f[3]);
    case 0x44: return beonasul_set_depth_func(&g, w[0]);
    case 0x45: return beonasul_set_alpha_func(&g, w[0], f[1]);
    case 0x46: return beonasul_set_blend_func(&g, w[0], w[1]);
    case 0x47: return beonasul_set_cull_face(&g, w[0]);
    case 0x48: return beonasul_set_front_face(&g, w[0]);
    case 0x49: return beonasul_set_fog(&g, w[0], f[1]);
    case 0x4a: return beonasul_set_depth_range(&g, f[0], f[1]);
    default: return beonasul_take_error(&g);
    }
}

static uint32_t draw_call(uint32_t code, const uint32_t *w, uint32_t n)
{
    if (w[2] > OUT_FLOATS)
        stop("a draw has more output than a trace may ask for");
    g.out_len = w[2];
    switch (code) {
    case 0x60: must_hold(n, 4, w[3]); return beonasul_draw_elements(&g, w[0], w[1], w + 4, w[3]);
    case 0x61: return beonasul_draw_arrays(&g, w[0], w[1], w[3], w[4]);
    default: return beonasul_draw_elements_from_guest(&g, w[0], w[1], w[3], w[4], w[5]);
    }
}

static uint32_t make_call(uint32_t code, const uint32_t *w, uint32_t n)
{
    float f[16];
    memcpy(f, w, sizeof f);
    switch (code >> 4) {
    case 1: return matrix_call(code, w, f);
    case 2: return buffer_call(code, w, n);
    case 3: return array_call(code, w, f);
    case 6: return draw_call(code, w, n);
    default: return setting_call(code, w, f);
    }
}

/* ---- what a record that is no call sets */

static void set_guest(uint32_t base, uint32_t len)
{
    if (len > GUEST_BYTES)
        stop("more guest bytes than a trace may have");
    g.guest_base = base;
    g.guest = guest;
    g.guest_len = len;
}

/* False if there is no such record. */
static bool set(uint32_t code, const uint32_t *w, uint32_t n)
{
    switch (code) {
    case 0x01: return true; /* a note */
    case 0x02: g.context = beonasul_fresh(); puts("FRESH 0"); return true;
    case 0x03: case 0x04: return true; /* the store while no buffer lives */
    case 0x05: return n == 1 && w[0] == BEONASUL_STORE_BYTES;
    case 0x06:
        must_hold(n, 2, 0);
        must_hold_bytes(n, 2, w[1]);
        set_guest(w[0], w[1]);
        memcpy(guest, w + 2, w[1]);
        return true;
    case 0x07:
        must_hold(n, 3, 0);
        set_guest(w[0], w[1]);
        for (uint32_t i = 0; i < w[1]; i++)
            guest[i] = (uint8_t)((i * 2654435761u + w[2]) >> 24);
        return true;
    case 0x08: must_hold(n, 1, 0); g.guest_base = w[0]; return true;
    default: return code == 0x7f || (code >= 0x70 && code <= 0x73); /* dumps and outer stacks */
    }
}

/* ---- answers */

static void print_word(float x, char after)
{
    const uint32_t bits = beonasul_bits(x);
    printf("%08x%c", (bits & 0x7fffffff) > 0x7f800000 ? 0x7fc00000 : bits, after);
}

static void print_answer(const char *name, uint32_t code, uint32_t number)
{
    printf("%s %u", name, number);
    if (code == 0x20 || code == 0x50 || code >= 0x60)
        printf(" %zu", g.value);
    putchar('\n');
    if (code < 0x60)
        return;
    for (size_t i = 0; i < g.value * BEONASUL_TRIANGLE_FLOATS; i++)
        print_word(g.out[i], i % BEONASUL_TRIANGLE_FLOATS == BEONASUL_TRIANGLE_FLOATS - 1 ? '\n' : ' ');
}

static void play(uint32_t code, uint32_t n)
{
    for (size_t i = 0; i < sizeof calls / sizeof *calls; i++) {
        if (calls[i].code != code)
            continue;
        must_hold(n, calls[i].words, 0);
        print_answer(calls[i].name, code, make_call(code, record, n));
        return;
    }
    if (!set(code, record, n))
        stop("a record that is not of this boundary");
}

int main(int argc, char **argv)
{
    uint32_t head[2];
    size_t got;
    FILE *trace = argc == 2 ? fopen(argv[1], "rb") : NULL;
    if (trace == NULL)
        stop("usage: deck TRACE, a file that can be read");
    if (!beonasul_start(&g, store, out, OUT_FLOATS))
        stop("the library is of another version");
    g.words = room;
    g.words_len = sizeof room / sizeof *room;
    while ((got = fread(head, 1, sizeof head, trace)) == sizeof head) {
        if (head[1] > RECORD_WORDS || fread(record, sizeof *record, head[1], trace) != head[1])
            stop("the trace ends inside a record");
        play(head[0], head[1]);
    }
    if (got != 0)
        stop("the trace ends inside a record");
    return fclose(trace);
}
