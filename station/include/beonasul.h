/* Beonasul for C and C++: the calls of the proved vertex front end, by its static library.

   A host keeps a `struct beonasul`, lends it a store and an output, and makes each call by its function:

       beonasul_translate(&g, x, y, z)

   Every call answers a number, BEONASUL_DONE or the reason of the refusal. Three kinds answer more, in g.value: a draw the count of its
   triangles, which stand from the start of g.out on; gen_buffers the first name; take_error the code. A refused call changes nothing but
   the error slot, save that a bind at a refused target still makes its name.

   What the library does with a list of calls is proved; the functions here, which write the words of a call, are tested. docs/CALLS.md
   says which call of OpenGL ES each one is. What no contract can say, the host sees to:
   - Every pointer is valid, not null and aligned as its type asks, also where its length is 0.
   - Context, store, words, bytes and output do not overlap. What a call writes is the context, the store and the output.
   - The store of a context is lent to each of its calls and written by nobody else: its buffers' bytes lie there.
   - Every bool in a context is 0 or 1. Any other numbers there are safe: those of no sound context are refused with 1. The bytes between
     its fields are nobody's: two equal contexts may differ there.
   - One thread at a time makes calls on a context. Two contexts with a store and an output each share nothing.
   - It is Linux on x86-64, and the thread's stack has 64 KB or more: a call takes some 50. */
#ifndef BEONASUL_H
#define BEONASUL_H

#include <math.h>
#include <stdbool.h>
#include <stddef.h>
#include <stdint.h>
#include <string.h>

/* The version of this boundary, and how many bytes the store of a context has. */
#define BEONASUL_VERSION 1
#define BEONASUL_STORE_BYTES 65536

/* How many f32 a triangle has in the output. */
#define BEONASUL_TRIANGLE_FLOATS 51

/* What a call answers. From 0x0500 on they are codes of OpenGL ES and enter the error slot. */
enum {
    BEONASUL_DONE = 0,
    BEONASUL_NOT_SOUND = 1, /* the numbers of the context are no sound context's, or the store has another length */
    BEONASUL_GUEST_TOO_LONG = 2, /* the guest bytes end past 2^32 */
    BEONASUL_STAGE_MASK = 3, /* a stage mask of 16 or more */
    BEONASUL_NO_BUFFER_LEFT = 4, /* more than 16 names would live */
    BEONASUL_NO_NAME_LEFT = 5, /* a name would be 2^32-1 or more */
    BEONASUL_BUFFER_TOO_LARGE = 6, /* more than 4,096 bytes */
    BEONASUL_INDICES_UNREADABLE = 7, /* the indices are not in the guest bytes */
    BEONASUL_NO_VERTEX_ARRAY = 8, /* not enabled, or without buffer and pointer */
    BEONASUL_POSITION_UNREADABLE = 9, /* the position of an index cannot be fetched */
    BEONASUL_NO_TRIANGLES = 10, /* points or lines */
    BEONASUL_OUTPUT_TOO_SHORT = 11, /* fewer than 51 f32 for each triangle */
    BEONASUL_NO_RECORD = 23, /* words that are no record; nothing changed from there on */
    BEONASUL_INVALID_ENUM = 0x0500,
    BEONASUL_INVALID_VALUE = 0x0501,
    BEONASUL_INVALID_OPERATION = 0x0502,
    BEONASUL_STACK_OVERFLOW = 0x0503,
    BEONASUL_STACK_UNDERFLOW = 0x0504
};

/* The codes of the records of a list: code, number n of words, n words. An f32 is its bit pattern; a number of 64 bits is two words, the
   low one first. The functions below have the words of each; crates/list_records/specs/Encoding.antt defines them. */
enum {
    BEONASUL_RECORD_MATRIX_MODE = 0x10,
    BEONASUL_RECORD_LOAD_IDENTITY = 0x11,
    BEONASUL_RECORD_LOAD = 0x12,
    BEONASUL_RECORD_MULT = 0x13,
    BEONASUL_RECORD_PUSH = 0x14,
    BEONASUL_RECORD_POP = 0x15,
    BEONASUL_RECORD_TRANSLATE = 0x16,
    BEONASUL_RECORD_SCALE = 0x17,
    BEONASUL_RECORD_ROTATE = 0x18,
    BEONASUL_RECORD_FRUSTUM = 0x1a,
    BEONASUL_RECORD_ORTHO = 0x1b,
    BEONASUL_RECORD_GEN = 0x20,
    BEONASUL_RECORD_BIND = 0x21,
    BEONASUL_RECORD_DELETE = 0x22,
    BEONASUL_RECORD_BUFFER_DATA = 0x23,
    BEONASUL_RECORD_BUFFER_SUB_DATA = 0x24,
    BEONASUL_RECORD_VERTEX_POINTER = 0x30,
    BEONASUL_RECORD_COLOR_POINTER = 0x31,
    BEONASUL_RECORD_NORMAL_POINTER = 0x32,
    BEONASUL_RECORD_TEXCOORD_POINTER = 0x33,
    BEONASUL_RECORD_CLIENT_STATE = 0x34,
    BEONASUL_RECORD_CLIENT_UNIT = 0x35,
    BEONASUL_RECORD_COLOR = 0x36,
    BEONASUL_RECORD_MULTI_TEXCOORD = 0x37,
    BEONASUL_RECORD_ACTIVE_UNIT = 0x40,
    BEONASUL_RECORD_CAPABILITY = 0x41,
    BEONASUL_RECORD_TEX_ENV = 0x42,
    BEONASUL_RECORD_TEX_ENV_COLOR = 0x43,
    BEONASUL_RECORD_DEPTH_FUNC = 0x44,
    BEONASUL_RECORD_ALPHA_FUNC = 0x45,
    BEONASUL_RECORD_BLEND_FUNC = 0x46,
    BEONASUL_RECORD_CULL_FACE = 0x47,
    BEONASUL_RECORD_FRONT_FACE = 0x48,
    BEONASUL_RECORD_FOG = 0x49,
    BEONASUL_RECORD_DEPTH_RANGE = 0x4a,
    BEONASUL_RECORD_TAKE_ERROR = 0x50,
    BEONASUL_RECORD_DRAW_LIST = 0x60,
    BEONASUL_RECORD_DRAW_ARRAYS = 0x61,
    BEONASUL_RECORD_DRAW_GUEST = 0x62
};

/* The enumerants of OpenGL ES that the calls know. */
enum {
    BEONASUL_MODELVIEW = 0x1700, BEONASUL_PROJECTION = 0x1701, BEONASUL_TEXTURE = 0x1702,
    BEONASUL_POINTS = 0, BEONASUL_LINES = 1, BEONASUL_LINE_LOOP = 2, BEONASUL_LINE_STRIP = 3,
    BEONASUL_TRIANGLES = 4, BEONASUL_TRIANGLE_STRIP = 5, BEONASUL_TRIANGLE_FAN = 6,
    BEONASUL_BYTE = 0x1400, BEONASUL_UNSIGNED_BYTE = 0x1401, BEONASUL_SHORT = 0x1402, BEONASUL_UNSIGNED_SHORT = 0x1403,
    BEONASUL_FLOAT = 0x1406, BEONASUL_FIXED = 0x140C,
    BEONASUL_VERTEX_ARRAY = 0x8074, BEONASUL_NORMAL_ARRAY = 0x8075, BEONASUL_COLOR_ARRAY = 0x8076, BEONASUL_TEXTURE_COORD_ARRAY = 0x8078,
    BEONASUL_ARRAY_BUFFER = 0x8892, BEONASUL_ELEMENT_ARRAY_BUFFER = 0x8893,
    BEONASUL_TEXTURE0 = 0x84C0, BEONASUL_TEXTURE1 = 0x84C1, BEONASUL_TEXTURE2 = 0x84C2, BEONASUL_TEXTURE3 = 0x84C3,
    BEONASUL_CULL_FACE = 0x0B44, BEONASUL_FOG = 0x0B60, BEONASUL_DEPTH_TEST = 0x0B71, BEONASUL_ALPHA_TEST = 0x0BC0,
    BEONASUL_BLEND = 0x0BE2, BEONASUL_TEXTURE_2D = 0x0DE1,
    BEONASUL_TEXTURE_ENV_MODE = 0x2200, BEONASUL_MODULATE = 0x2100, BEONASUL_DECAL = 0x2101, BEONASUL_ADD = 0x0104,
    BEONASUL_REPLACE = 0x1E01, BEONASUL_COMBINE = 0x8570,
    BEONASUL_NEVER = 0x0200, BEONASUL_LESS = 0x0201, BEONASUL_EQUAL = 0x0202, BEONASUL_LEQUAL = 0x0203,
    BEONASUL_GREATER = 0x0204, BEONASUL_NOTEQUAL = 0x0205, BEONASUL_GEQUAL = 0x0206, BEONASUL_ALWAYS = 0x0207,
    BEONASUL_ZERO = 0, BEONASUL_ONE = 1, BEONASUL_SRC_COLOR = 0x0300, BEONASUL_ONE_MINUS_SRC_COLOR = 0x0301,
    BEONASUL_SRC_ALPHA = 0x0302, BEONASUL_ONE_MINUS_SRC_ALPHA = 0x0303, BEONASUL_DST_ALPHA = 0x0304,
    BEONASUL_ONE_MINUS_DST_ALPHA = 0x0305, BEONASUL_DST_COLOR = 0x0306, BEONASUL_ONE_MINUS_DST_COLOR = 0x0307,
    BEONASUL_SRC_ALPHA_SATURATE = 0x0308,
    BEONASUL_FRONT = 0x0404, BEONASUL_BACK = 0x0405, BEONASUL_FRONT_AND_BACK = 0x0408, BEONASUL_CW = 0x0900, BEONASUL_CCW = 0x0901,
    BEONASUL_FOG_DENSITY = 0x0B62, BEONASUL_FOG_START = 0x0B63, BEONASUL_FOG_END = 0x0B64, BEONASUL_FOG_MODE = 0x0B65,
    BEONASUL_EXP = 0x0800, BEONASUL_EXP2 = 0x0801, BEONASUL_LINEAR = 0x2601
};

/* ---- the context, as the host keeps it between calls. Each choice is its enumerant. */

typedef struct { float entries[16]; } beonasul_matrix; /* column by column */
typedef struct { beonasul_matrix current; size_t depth; beonasul_matrix saved[15]; } beonasul_stack; /* depth: how many are saved */
typedef struct { beonasul_stack modelview, projection, texture; } beonasul_stacks;
typedef struct { uint32_t name, len; } beonasul_slot; /* name 0: the slot is free */
typedef struct { beonasul_slot slots[16]; uint32_t next, array_buffer, element_buffer; } beonasul_buffers;
typedef struct { bool enabled; uint32_t size, ty, stride, pointer, buffer; } beonasul_pointer;
typedef struct { beonasul_pointer vertex, color, normal, texcoord[4]; uint32_t client_active_texture; } beonasul_arrays;
typedef struct { float s, t; } beonasul_pair;
typedef struct { float color[4]; beonasul_pair pairs[4]; } beonasul_attributes;
typedef struct { bool enabled; uint32_t env_mode; float env_color[4]; } beonasul_unit;

typedef struct {
    uint32_t active_texture;
    beonasul_unit units[4];
    bool depth_test;
    uint32_t depth_func;
    float near_, far_; /* not near and far, which are words of other compilers */
    bool alpha_test;
    uint32_t alpha_func;
    float reference;
    bool blend;
    uint32_t src, dst;
    bool cull;
    uint32_t cull_mode, front_face;
    bool fog;
    uint32_t fog_mode;
    float density, start, end;
} beonasul_settings;

typedef struct {
    beonasul_stacks stacks;
    beonasul_buffers buffers;
    beonasul_arrays arrays;
    beonasul_attributes attributes;
    beonasul_settings settings;
    uint32_t error; /* the error slot; 0: empty */
    uint32_t mode; /* the matrix mode in force */
} beonasul_context;

/* ---- a triangle of the output */

typedef struct { float position[4], color[4]; beonasul_pair texcoord[4]; float fog_depth; } beonasul_vertex;
typedef struct { beonasul_vertex vertices[3]; } beonasul_triangle;

/* ---- the library's functions */

/* Number and value of the last call made, and how many calls were made. */
typedef struct { uint32_t number; size_t value, made; } beonasul_reply;

/* The library's version, and its bytes of a context, a reply and a store. */
typedef struct { uint32_t version, context, reply, store; } beonasul_layout_t;

/* C99 has no static assertion: an array of -1 items does not compile. */
typedef char beonasul_context_has_3640_bytes[sizeof(beonasul_context) == 3640 ? 1 : -1];
typedef char beonasul_reply_has_24_bytes[sizeof(beonasul_reply) == 24 ? 1 : -1];
typedef char beonasul_triangle_has_51_floats[sizeof(beonasul_triangle) == BEONASUL_TRIANGLE_FLOATS * sizeof(float) ? 1 : -1];

#ifdef __cplusplus
extern "C" {
#endif

beonasul_layout_t beonasul_layout(void);

/* A fresh context. */
beonasul_context beonasul_fresh(void);

/* Makes the calls of a list of records, one after the other. The bytes that a record borrows (a buffer's data, guest memory) lie in
   `bytes`, at the place that it names. Each draw writes from the start of `out`: where the triangles of every draw are wanted, a list has
   one, at its end. Words that are no record answer BEONASUL_NO_RECORD; the calls before them were made. */
beonasul_reply beonasul_run(beonasul_context *context, uint8_t *store, size_t store_len, const uint32_t *words, size_t words_len,
                            const uint8_t *bytes, size_t bytes_len, float *out, size_t out_len);

#ifdef __cplusplus
}
#endif

/* ---- a context and what is lent to its calls. Between two calls the host may set guest view, output and room for words as it likes. */

struct beonasul {
    beonasul_context context;
    uint8_t *store; /* BEONASUL_STORE_BYTES bytes */
    uint32_t guest_base; /* the guest view of the draws: its address, */
    const uint8_t *guest; /* its bytes */
    size_t guest_len; /* and how many they are */
    float *out; /* where a draw writes its triangles */
    size_t out_len; /* in f32 */
    uint32_t *words; /* room for the words of draw_elements (11 more than indices) and delete_buffers (2 more than names) */
    size_t words_len; /* in words; where there is too little room, these two answer BEONASUL_NO_RECORD and nothing is done */
    size_t value; /* of the last call */
};

/* Makes `g` fresh, without guest bytes and without room for words. False, and nothing is done, if the library has another version of this
   boundary, or other sizes. */
static inline bool beonasul_start(struct beonasul *g, uint8_t *store, float *out, size_t out_len)
{
    const beonasul_layout_t library = beonasul_layout();
    if (library.version != BEONASUL_VERSION || library.context != sizeof(beonasul_context) || library.reply != sizeof(beonasul_reply) ||
        library.store != BEONASUL_STORE_BYTES)
        return false;
    g->context = beonasul_fresh();
    g->store = store;
    g->guest_base = 0;
    g->guest = store;
    g->guest_len = 0;
    g->out = out;
    g->out_len = out_len;
    g->words = NULL;
    g->words_len = 0;
    g->value = 0;
    return true;
}

/* The triangles of the last draw, g.value of them. */
static inline const beonasul_triangle *beonasul_triangles(const struct beonasul *g)
{
    return (const beonasul_triangle *)(const void *)g->out;
}

/* ---- how the functions below make their call */

static inline uint32_t beonasul_bits(float x)
{
    uint32_t bits;
    memcpy(&bits, &x, sizeof bits);
    return bits;
}

static inline uint32_t beonasul_low(size_t n)
{
    return (uint32_t)(n & 0xffffffffu);
}

static inline uint32_t beonasul_high(size_t n)
{
    return (uint32_t)((uint64_t)n >> 32);
}

/* Makes the call of one record. */
static inline uint32_t beonasul_make(struct beonasul *g, const uint32_t *record, size_t record_len, const uint8_t *bytes, size_t bytes_len)
{
    const beonasul_reply reply =
        beonasul_run(&g->context, g->store, BEONASUL_STORE_BYTES, record, record_len, bytes, bytes_len, g->out, g->out_len);
    g->value = reply.value;
    return reply.number;
}

/* A call whose words are at most 16, u32 or f32, and borrow no bytes. */
static inline uint32_t beonasul_call(struct beonasul *g, uint32_t code, const void *words, uint32_t count)
{
    uint32_t record[18];
    record[0] = code;
    record[1] = count;
    memcpy(record + 2, words, count * sizeof *record);
    return beonasul_make(g, record, 2 + (size_t)count, g->guest, 0);
}

/* A call without words. */
static inline uint32_t beonasul_bare_call(struct beonasul *g, uint32_t code)
{
    const uint32_t record[2] = { code, 0 };
    return beonasul_make(g, record, 2, g->guest, 0);
}

/* A call that borrows the guest bytes and ends in a list: `head` is the record up to the list. */
static inline uint32_t beonasul_list_call(struct beonasul *g, const uint32_t *head, size_t head_len, const uint32_t *list, size_t count)
{
    if (g->words_len < head_len || count > g->words_len - head_len || count > 0xffffffffu - head_len) {
        g->value = 0;
        return BEONASUL_NO_RECORD;
    }
    memcpy(g->words, head, head_len * sizeof *head);
    if (count > 0)
        memcpy(g->words + head_len, list, count * sizeof *list);
    g->words[1] = (uint32_t)(head_len - 2 + count);
    return beonasul_make(g, g->words, head_len + count, g->guest, g->guest_len);
}

/* ---- matrices, on the stack of the mode in force */

static inline uint32_t beonasul_set_matrix_mode(struct beonasul *g, uint32_t mode)
{
    return beonasul_call(g, BEONASUL_RECORD_MATRIX_MODE, &mode, 1);
}

static inline uint32_t beonasul_load_identity(struct beonasul *g)
{
    return beonasul_bare_call(g, BEONASUL_RECORD_LOAD_IDENTITY);
}

/* A matrix is 16 f32, column by column. */
static inline uint32_t beonasul_load_matrix(struct beonasul *g, const float *matrix)
{
    return beonasul_call(g, BEONASUL_RECORD_LOAD, matrix, 16);
}

static inline uint32_t beonasul_mult_matrix(struct beonasul *g, const float *matrix)
{
    return beonasul_call(g, BEONASUL_RECORD_MULT, matrix, 16);
}

static inline uint32_t beonasul_push_matrix(struct beonasul *g)
{
    return beonasul_bare_call(g, BEONASUL_RECORD_PUSH);
}

static inline uint32_t beonasul_pop_matrix(struct beonasul *g)
{
    return beonasul_bare_call(g, BEONASUL_RECORD_POP);
}

static inline uint32_t beonasul_translate(struct beonasul *g, float x, float y, float z)
{
    const float words[3] = { x, y, z };
    return beonasul_call(g, BEONASUL_RECORD_TRANSLATE, words, 3);
}

static inline uint32_t beonasul_scale(struct beonasul *g, float x, float y, float z)
{
    const float words[3] = { x, y, z };
    return beonasul_call(g, BEONASUL_RECORD_SCALE, words, 3);
}

/* Rotates by an angle of this cosine and sine around a unit axis. */
static inline uint32_t beonasul_rotate_by(struct beonasul *g, float cosine, float sine, float x, float y, float z)
{
    const float words[5] = { cosine, sine, x, y, z };
    return beonasul_call(g, BEONASUL_RECORD_ROTATE, words, 5);
}

/* Rotates by an angle in degrees around any axis; cosine, sine and unit axis as PocketHLE makes them. An axis of computed length 0
   multiplies by the identity. Link with -lm. The squares are volatile, so that no compiler joins their products and sums. */
static inline uint32_t beonasul_rotate(struct beonasul *g, float angle, float x, float y, float z)
{
    static const float identity[16] = { 1, 0, 0, 0, 0, 1, 0, 0, 0, 0, 1, 0, 0, 0, 0, 1 };
    const volatile float xx = x * x, yy = y * y, zz = z * z;
    const float length = sqrtf(xx + yy + zz);
    const float radians = angle * (3.14159265f / 180.0f);
    if (length == 0.0f)
        return beonasul_mult_matrix(g, identity);
    return beonasul_rotate_by(g, cosf(radians), sinf(radians), x / length, y / length, z / length);
}

static inline uint32_t beonasul_frustum(struct beonasul *g, float l, float r, float b, float t, float n, float f)
{
    const float words[6] = { l, r, b, t, n, f };
    return beonasul_call(g, BEONASUL_RECORD_FRUSTUM, words, 6);
}

static inline uint32_t beonasul_ortho(struct beonasul *g, float l, float r, float b, float t, float n, float f)
{
    const float words[6] = { l, r, b, t, n, f };
    return beonasul_call(g, BEONASUL_RECORD_ORTHO, words, 6);
}

/* ---- buffers */

/* Makes n names; g.value is the first, the others follow it. */
static inline uint32_t beonasul_gen_buffers(struct beonasul *g, size_t n)
{
    const uint32_t words[2] = { beonasul_low(n), beonasul_high(n) };
    return beonasul_call(g, BEONASUL_RECORD_GEN, words, 2);
}

static inline uint32_t beonasul_bind_buffer(struct beonasul *g, uint32_t target, uint32_t name)
{
    const uint32_t words[2] = { target, name };
    return beonasul_call(g, BEONASUL_RECORD_BIND, words, 2);
}

/* Needs room in g.words for `count` names and 2 words. */
static inline uint32_t beonasul_delete_buffers(struct beonasul *g, const uint32_t *names, size_t count)
{
    const uint32_t head[2] = { BEONASUL_RECORD_DELETE, 0 };
    return beonasul_list_call(g, head, 2, names, count);
}

/* `data` may be null where `data_len` is 0. The shorter of data and size is copied, the rest is zero. */
static inline uint32_t beonasul_buffer_data(struct beonasul *g, uint32_t target, size_t size, const uint8_t *data, size_t data_len,
                                            uint32_t usage)
{
    const uint32_t record[10] = { BEONASUL_RECORD_BUFFER_DATA, 8, target, beonasul_low(size), beonasul_high(size), usage, 0, 0,
                                  beonasul_low(data_len), beonasul_high(data_len) };
    return beonasul_make(g, record, 10, data_len > 0 ? data : g->guest, data_len);
}

/* `data` may be null where `data_len` is 0. */
static inline uint32_t beonasul_buffer_sub_data(struct beonasul *g, uint32_t target, uint32_t offset, const uint8_t *data, size_t data_len)
{
    const uint32_t record[8] = { BEONASUL_RECORD_BUFFER_SUB_DATA, 6, target, offset, 0, 0, beonasul_low(data_len),
                                 beonasul_high(data_len) };
    return beonasul_make(g, record, 8, data_len > 0 ? data : g->guest, data_len);
}

/* ---- arrays and attributes */

static inline uint32_t beonasul_set_vertex_pointer(struct beonasul *g, uint32_t size, uint32_t type, uint32_t stride, uint32_t pointer)
{
    const uint32_t words[4] = { size, type, stride, pointer };
    return beonasul_call(g, BEONASUL_RECORD_VERTEX_POINTER, words, 4);
}

static inline uint32_t beonasul_set_color_pointer(struct beonasul *g, uint32_t size, uint32_t type, uint32_t stride, uint32_t pointer)
{
    const uint32_t words[4] = { size, type, stride, pointer };
    return beonasul_call(g, BEONASUL_RECORD_COLOR_POINTER, words, 4);
}

static inline uint32_t beonasul_set_normal_pointer(struct beonasul *g, uint32_t type, uint32_t stride, uint32_t pointer)
{
    const uint32_t words[3] = { type, stride, pointer };
    return beonasul_call(g, BEONASUL_RECORD_NORMAL_POINTER, words, 3);
}

static inline uint32_t beonasul_set_texcoord_pointer(struct beonasul *g, uint32_t size, uint32_t type, uint32_t stride, uint32_t pointer)
{
    const uint32_t words[4] = { size, type, stride, pointer };
    return beonasul_call(g, BEONASUL_RECORD_TEXCOORD_POINTER, words, 4);
}

static inline uint32_t beonasul_set_client_state(struct beonasul *g, uint32_t array, bool on)
{
    const uint32_t words[2] = { array, on };
    return beonasul_call(g, BEONASUL_RECORD_CLIENT_STATE, words, 2);
}

/* A unit is 0 to 3, not BEONASUL_TEXTURE0 and so on. */
static inline uint32_t beonasul_set_client_active_texture(struct beonasul *g, uint32_t unit)
{
    return beonasul_call(g, BEONASUL_RECORD_CLIENT_UNIT, &unit, 1);
}

static inline uint32_t beonasul_set_color(struct beonasul *g, float red, float green, float blue, float alpha)
{
    const float words[4] = { red, green, blue, alpha };
    return beonasul_call(g, BEONASUL_RECORD_COLOR, words, 4);
}

/* Here the unit is BEONASUL_TEXTURE0 to BEONASUL_TEXTURE3. */
static inline uint32_t beonasul_set_multi_texcoord(struct beonasul *g, uint32_t unit, float s, float t)
{
    const uint32_t words[3] = { unit, beonasul_bits(s), beonasul_bits(t) };
    return beonasul_call(g, BEONASUL_RECORD_MULTI_TEXCOORD, words, 3);
}

/* ---- settings, which no draw reads, and the error slot */

/* A unit is 0 to 3. */
static inline uint32_t beonasul_set_active_texture(struct beonasul *g, uint32_t unit)
{
    return beonasul_call(g, BEONASUL_RECORD_ACTIVE_UNIT, &unit, 1);
}

static inline uint32_t beonasul_set_capability(struct beonasul *g, uint32_t capability, bool on)
{
    const uint32_t words[2] = { capability, on };
    return beonasul_call(g, BEONASUL_RECORD_CAPABILITY, words, 2);
}

static inline uint32_t beonasul_tex_env(struct beonasul *g, uint32_t pname, uint32_t value)
{
    const uint32_t words[2] = { pname, value };
    return beonasul_call(g, BEONASUL_RECORD_TEX_ENV, words, 2);
}

static inline uint32_t beonasul_set_tex_env_color(struct beonasul *g, float red, float green, float blue, float alpha)
{
    const float words[4] = { red, green, blue, alpha };
    return beonasul_call(g, BEONASUL_RECORD_TEX_ENV_COLOR, words, 4);
}

static inline uint32_t beonasul_set_depth_func(struct beonasul *g, uint32_t func)
{
    return beonasul_call(g, BEONASUL_RECORD_DEPTH_FUNC, &func, 1);
}

static inline uint32_t beonasul_set_depth_range(struct beonasul *g, float near_, float far_)
{
    const float words[2] = { near_, far_ };
    return beonasul_call(g, BEONASUL_RECORD_DEPTH_RANGE, words, 2);
}

static inline uint32_t beonasul_set_alpha_func(struct beonasul *g, uint32_t func, float reference)
{
    const uint32_t words[2] = { func, beonasul_bits(reference) };
    return beonasul_call(g, BEONASUL_RECORD_ALPHA_FUNC, words, 2);
}

static inline uint32_t beonasul_set_blend_func(struct beonasul *g, uint32_t source, uint32_t destination)
{
    const uint32_t words[2] = { source, destination };
    return beonasul_call(g, BEONASUL_RECORD_BLEND_FUNC, words, 2);
}

static inline uint32_t beonasul_set_cull_face(struct beonasul *g, uint32_t mode)
{
    return beonasul_call(g, BEONASUL_RECORD_CULL_FACE, &mode, 1);
}

static inline uint32_t beonasul_set_front_face(struct beonasul *g, uint32_t mode)
{
    return beonasul_call(g, BEONASUL_RECORD_FRONT_FACE, &mode, 1);
}

static inline uint32_t beonasul_set_fog(struct beonasul *g, uint32_t pname, float value)
{
    const uint32_t words[2] = { pname, beonasul_bits(value) };
    return beonasul_call(g, BEONASUL_RECORD_FOG, words, 2);
}

/* g.value is the code in the error slot, which is empty after it. */
static inline uint32_t beonasul_take_error(struct beonasul *g)
{
    return beonasul_bare_call(g, BEONASUL_RECORD_TAKE_ERROR);
}

/* ---- draws. `stages` is a mask: bits 0 to 3 name the texture units whose pairs are computed. g.value is the count of the triangles. */

/* The first eleven words of a draw, with as much output as there is and the guest view in force. */
static inline void beonasul_begin_draw(const struct beonasul *g, uint32_t *record, uint32_t code, uint32_t count, uint32_t mode,
                                       uint32_t stages)
{
    const uint32_t head[11] = { code, count, mode, stages, beonasul_low(g->out_len), beonasul_high(g->out_len), g->guest_base, 0, 0,
                                beonasul_low(g->guest_len), beonasul_high(g->guest_len) };
    memcpy(record, head, sizeof head);
}

/* Needs room in g.words for `count` indices and 11 words. */
static inline uint32_t beonasul_draw_elements(struct beonasul *g, uint32_t mode, uint32_t stages, const uint32_t *indices, size_t count)
{
    uint32_t head[11];
    beonasul_begin_draw(g, head, BEONASUL_RECORD_DRAW_LIST, 9, mode, stages);
    return beonasul_list_call(g, head, 11, indices, count);
}

static inline uint32_t beonasul_draw_arrays(struct beonasul *g, uint32_t mode, uint32_t stages, uint32_t first, uint32_t count)
{
    uint32_t record[13];
    beonasul_begin_draw(g, record, BEONASUL_RECORD_DRAW_ARRAYS, 11, mode, stages);
    record[11] = first;
    record[12] = count;
    return beonasul_make(g, record, 13, g->guest, g->guest_len);
}

/* Indices of a type, bytes or shorts, from the element buffer, else from the guest bytes. */
static inline uint32_t beonasul_draw_elements_from_guest(struct beonasul *g, uint32_t mode, uint32_t stages, uint32_t count, uint32_t type,
                                                         uint32_t pointer)
{
    uint32_t record[14];
    beonasul_begin_draw(g, record, BEONASUL_RECORD_DRAW_GUEST, 12, mode, stages);
    record[11] = count;
    record[12] = type;
    record[13] = pointer;
    return beonasul_make(g, record, 14, g->guest, g->guest_len);
}

#endif
