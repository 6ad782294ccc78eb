/* calls TRACE: each function of beonasul.h does what its name says, to the field of the context or to the triangle; each number comes
   where it should. The rotations of the trace, whose cosines, sines and axes are the Rust's, come out of angle and axis alike. All of it
   runs on a stack of 64 KB, as the header says. Exit status 1 if a check fails. */
#define _POSIX_C_SOURCE 200809L
#include <beonasul.h>
#include <pthread.h>
#include <stdio.h>
#include <stdlib.h>

enum { STACK_BYTES = 65536, BASE = 4096, ROOM = 2 * BEONASUL_TRIANGLE_FLOATS };

static const uint8_t guest[12] = { 0, 0, 1, 0, 0, 1, 1, 1, 0, 1, 2, 3 };
static uint8_t store[BEONASUL_STORE_BYTES];
static float out[ROOM];
static uint32_t room[11 + 6];
static struct beonasul g;
static const char *trace_name;
static int checks, failures;

static void check(bool holds, int line, const char *text)
{
    checks++;
    if (holds)
        return;
    failures++;
    printf("calls: line %d: %s\n", line, text);
}

#define CHECK(condition) check(condition, __LINE__, #condition)

/* The call is accepted and the condition holds after it. */
#define DOES(call, condition) check((call) == BEONASUL_DONE && (condition), __LINE__, #call ": " #condition)

/* The call answers this number, and its value is 0. */
#define REFUSES(call, number) check((call) == (number) && g.value == 0, __LINE__, #call ": " #number)

static void start(void)
{
    CHECK(beonasul_start(&g, store, out, ROOM));
    g.guest_base = BASE;
    g.guest = guest;
    g.guest_len = sizeof guest;
    g.words = room;
    g.words_len = sizeof room / sizeof *room;
}

/* ---- matrices */

static const float *top(void)
{
    return g.context.stacks.modelview.current.entries;
}

static bool is_matrix(const beonasul_matrix *m, const float *entries)
{
    return memcmp(m, entries, sizeof *m) == 0;
}

static bool entries_are(float e0, float e5, float e10, float e12, float e13, float e14)
{
    const float *e = top();
    return e[0] == e0 && e[5] == e5 && e[10] == e10 && e[12] == e12 && e[13] == e13 && e[14] == e14;
}

static void check_matrices(void)
{
    static const float counted[16] = { 1, 2, 3, 4, 5, 6, 7, 8, 9, 10, 11, 12, 13, 14, 15, 16 };
    const beonasul_stacks *s = &g.context.stacks;
    start();
    CHECK(g.context.mode == BEONASUL_MODELVIEW && entries_are(1, 1, 1, 0, 0, 0));
    DOES(beonasul_set_matrix_mode(&g, BEONASUL_TEXTURE), g.context.mode == BEONASUL_TEXTURE);
    DOES(beonasul_load_matrix(&g, counted), is_matrix(&s->texture.current, counted));
    DOES(beonasul_set_matrix_mode(&g, BEONASUL_PROJECTION), is_matrix(&s->texture.current, counted));
    DOES(beonasul_mult_matrix(&g, counted), is_matrix(&s->projection.current, counted));
    DOES(beonasul_push_matrix(&g), s->projection.depth == 1 && is_matrix(&s->projection.saved[0], counted));
    DOES(beonasul_load_identity(&g), s->projection.current.entries[4] == 0);
    DOES(beonasul_pop_matrix(&g), s->projection.depth == 0 && is_matrix(&s->projection.current, counted));
    DOES(beonasul_set_matrix_mode(&g, BEONASUL_MODELVIEW), entries_are(1, 1, 1, 0, 0, 0));
    DOES(beonasul_translate(&g, 2, 3, 4), entries_are(1, 1, 1, 2, 3, 4));
    DOES(beonasul_scale(&g, 5, 6, 7), entries_are(5, 6, 7, 2, 3, 4));
    DOES(beonasul_load_identity(&g), entries_are(1, 1, 1, 0, 0, 0));
    DOES(beonasul_frustum(&g, -1, 3, -1, 7, 2, 6), entries_are(1, 0.5f, -2, 0, 0, -6) && top()[8] == 0.5f && top()[9] == 0.75f);
    DOES(beonasul_load_identity(&g), top()[11] == 0);
    DOES(beonasul_ortho(&g, 0, 2, -1, 3, 4, 8), entries_are(1, 0.5f, -0.5f, -1, -0.5f, -3));
    DOES(beonasul_load_identity(&g), true);
    DOES(beonasul_rotate_by(&g, 0, 1, 0, 0, 1), entries_are(0, 0, 1, 0, 0, 0) && top()[1] == 1 && top()[4] == -1);
    DOES(beonasul_rotate(&g, 77, 0, 0, 0), top()[1] == 1 && top()[4] == -1);
    REFUSES(beonasul_pop_matrix(&g), BEONASUL_STACK_UNDERFLOW);
    for (int i = 0; i < 15; i++)
        DOES(beonasul_push_matrix(&g), s->modelview.depth == (size_t)i + 1);
    REFUSES(beonasul_push_matrix(&g), BEONASUL_STACK_OVERFLOW);
    REFUSES(beonasul_frustum(&g, -1, 1, -1, 1, 0, 1), BEONASUL_INVALID_VALUE);
    DOES(beonasul_take_error(&g), g.value == BEONASUL_STACK_UNDERFLOW && g.context.error == 0);
}

/* A rotation record of a trace: cosine, sine and unit axis, then the angle and the axis that they come from. */
static void check_rotation(const float *f)
{
    beonasul_matrix made;
    start();
    DOES(beonasul_rotate_by(&g, f[0], f[1], f[2], f[3], f[4]), true);
    made = g.context.stacks.modelview.current;
    start();
    DOES(beonasul_rotate(&g, f[5], f[6], f[7], f[8]), is_matrix(&made, top()));
}

static void check_rotations(void)
{
    static uint32_t words[65600];
    uint32_t head[2];
    float f[9];
    int rotations = 0;
    FILE *trace = fopen(trace_name, "rb");
    CHECK(trace != NULL);
    while (trace != NULL && fread(head, sizeof head, 1, trace) == 1) {
        if (head[1] > 65600 || fread(words, sizeof *words, head[1], trace) != head[1] || head[0] != BEONASUL_RECORD_ROTATE)
            continue;
        memcpy(f, words, sizeof f);
        check_rotation(f);
        rotations++;
    }
    CHECK(rotations > 0);
    if (trace != NULL)
        fclose(trace);
}

/* ---- buffers */

/* The store's bytes of a live name; its length must be this. */
static const uint8_t *bytes_of(uint32_t name, uint32_t len)
{
    for (int i = 0; i < 16; i++)
        if (g.context.buffers.slots[i].name == name && g.context.buffers.slots[i].len == len)
            return store + 4096 * i;
    return NULL;
}

static bool holds(uint32_t name, const char *bytes, uint32_t len)
{
    const uint8_t *p = bytes_of(name, len);
    return p != NULL && memcmp(p, bytes, len) == 0;
}

static void check_buffers(void)
{
    static const uint32_t names[2] = { 3, 2 };
    const beonasul_buffers *b = &g.context.buffers;
    start();
    DOES(beonasul_gen_buffers(&g, 3), g.value == 1 && b->next == 4 && bytes_of(3, 0) != NULL);
    DOES(beonasul_bind_buffer(&g, BEONASUL_ARRAY_BUFFER, 2), b->array_buffer == 2 && b->element_buffer == 0);
    DOES(beonasul_bind_buffer(&g, BEONASUL_ELEMENT_ARRAY_BUFFER, 3), b->array_buffer == 2 && b->element_buffer == 3);
    DOES(beonasul_buffer_data(&g, BEONASUL_ARRAY_BUFFER, 5, (const uint8_t *)"abc", 3, 0x88E4), holds(2, "abc\0\0", 5));
    DOES(beonasul_buffer_data(&g, BEONASUL_ELEMENT_ARRAY_BUFFER, 2, (const uint8_t *)"xyz", 3, 0), holds(3, "xy", 2));
    DOES(beonasul_buffer_sub_data(&g, BEONASUL_ARRAY_BUFFER, 3, (const uint8_t *)"de", 2), holds(2, "abcde", 5));
    DOES(beonasul_buffer_sub_data(&g, BEONASUL_ARRAY_BUFFER, 5, NULL, 0), holds(2, "abcde", 5));
    DOES(beonasul_buffer_data(&g, BEONASUL_ELEMENT_ARRAY_BUFFER, 3, NULL, 0, 0), holds(3, "\0\0\0", 3));
    REFUSES(beonasul_buffer_sub_data(&g, BEONASUL_ARRAY_BUFFER, 4, (const uint8_t *)"de", 2), BEONASUL_INVALID_VALUE);
    REFUSES(beonasul_buffer_data(&g, BEONASUL_ARRAY_BUFFER, 4097, NULL, 0, 0), BEONASUL_BUFFER_TOO_LARGE);
    REFUSES(beonasul_buffer_data(&g, BEONASUL_ARRAY_BUFFER, (size_t)1 << 32, NULL, 0, 0), BEONASUL_BUFFER_TOO_LARGE);
    REFUSES(beonasul_gen_buffers(&g, 14), BEONASUL_NO_BUFFER_LEFT);
    REFUSES(beonasul_gen_buffers(&g, (size_t)1 << 32), BEONASUL_NO_BUFFER_LEFT);
    REFUSES(beonasul_bind_buffer(&g, BEONASUL_ARRAY_BUFFER, 0xffffffff), BEONASUL_NO_NAME_LEFT);
    DOES(beonasul_delete_buffers(&g, names, 2), bytes_of(2, 5) == NULL && b->array_buffer == 0 && b->element_buffer == 0);
    DOES(beonasul_delete_buffers(&g, NULL, 0), bytes_of(1, 0) != NULL);
    g.words_len = 3;
    REFUSES(beonasul_delete_buffers(&g, names, 2), BEONASUL_NO_RECORD);
    REFUSES(beonasul_buffer_sub_data(&g, BEONASUL_ARRAY_BUFFER, 0, NULL, 0), BEONASUL_INVALID_OPERATION);
}

/* ---- arrays and attributes */

static bool is_pointer(const beonasul_pointer *p, uint32_t size, uint32_t ty, uint32_t stride, uint32_t pointer, uint32_t buffer)
{
    return p->size == size && p->ty == ty && p->stride == stride && p->pointer == pointer && p->buffer == buffer;
}

static bool are_floats(const float *f, float a, float b, float c, float d)
{
    return f[0] == a && f[1] == b && f[2] == c && f[3] == d;
}

static void check_arrays(void)
{
    const beonasul_arrays *a = &g.context.arrays;
    const beonasul_attributes *t = &g.context.attributes;
    start();
    DOES(beonasul_bind_buffer(&g, BEONASUL_ARRAY_BUFFER, 9), true);
    DOES(beonasul_set_vertex_pointer(&g, 2, BEONASUL_FIXED, 5, 6), is_pointer(&a->vertex, 2, BEONASUL_FIXED, 5, 6, 9));
    DOES(beonasul_set_color_pointer(&g, 4, BEONASUL_FLOAT, 7, 8), is_pointer(&a->color, 4, BEONASUL_FLOAT, 7, 8, 9));
    DOES(beonasul_set_normal_pointer(&g, BEONASUL_SHORT, 11, 12), is_pointer(&a->normal, 3, BEONASUL_SHORT, 11, 12, 9));
    DOES(beonasul_set_client_active_texture(&g, 2), a->client_active_texture == 2);
    DOES(beonasul_set_texcoord_pointer(&g, 3, BEONASUL_BYTE, 13, 14), is_pointer(&a->texcoord[2], 3, BEONASUL_BYTE, 13, 14, 9));
    DOES(beonasul_set_client_state(&g, BEONASUL_VERTEX_ARRAY, true), a->vertex.enabled && !a->color.enabled);
    DOES(beonasul_set_client_state(&g, BEONASUL_COLOR_ARRAY, true), a->color.enabled && !a->normal.enabled);
    DOES(beonasul_set_client_state(&g, BEONASUL_NORMAL_ARRAY, true), a->normal.enabled && !a->texcoord[2].enabled);
    DOES(beonasul_set_client_state(&g, BEONASUL_TEXTURE_COORD_ARRAY, true), a->texcoord[2].enabled && !a->texcoord[0].enabled);
    DOES(beonasul_set_client_state(&g, BEONASUL_VERTEX_ARRAY, false), !a->vertex.enabled && a->color.enabled);
    DOES(beonasul_set_color(&g, 1, 2, 3, 4), are_floats(t->color, 1, 2, 3, 4));
    DOES(beonasul_set_multi_texcoord(&g, BEONASUL_TEXTURE3, 5, 6), t->pairs[3].s == 5 && t->pairs[3].t == 6 && t->pairs[2].s == 0);
    REFUSES(beonasul_set_client_active_texture(&g, BEONASUL_TEXTURE0), BEONASUL_INVALID_ENUM);
}

/* ---- settings */

static void check_settings(void)
{
    const beonasul_settings *s = &g.context.settings;
    start();
    DOES(beonasul_set_active_texture(&g, 3), s->active_texture == 3);
    DOES(beonasul_set_capability(&g, BEONASUL_TEXTURE_2D, true), s->units[3].enabled && !s->units[2].enabled);
    DOES(beonasul_tex_env(&g, BEONASUL_TEXTURE_ENV_MODE, BEONASUL_DECAL), s->units[3].env_mode == BEONASUL_DECAL);
    DOES(beonasul_set_tex_env_color(&g, 1, 2, 3, 4), are_floats(s->units[3].env_color, 1, 2, 3, 4));
    DOES(beonasul_set_capability(&g, BEONASUL_DEPTH_TEST, true), s->depth_test && !s->alpha_test);
    DOES(beonasul_set_capability(&g, BEONASUL_ALPHA_TEST, true), s->alpha_test && !s->blend);
    DOES(beonasul_set_capability(&g, BEONASUL_BLEND, true), s->blend && !s->cull);
    DOES(beonasul_set_capability(&g, BEONASUL_CULL_FACE, true), s->cull && !s->fog);
    DOES(beonasul_set_capability(&g, BEONASUL_FOG, true), s->fog);
    DOES(beonasul_set_capability(&g, BEONASUL_DEPTH_TEST, false), !s->depth_test);
    DOES(beonasul_set_depth_func(&g, BEONASUL_GREATER), s->depth_func == BEONASUL_GREATER);
    DOES(beonasul_set_depth_range(&g, 0.25f, 0.5f), s->near_ == 0.25f && s->far_ == 0.5f);
    DOES(beonasul_set_alpha_func(&g, BEONASUL_NEVER, 0.75f), s->alpha_func == BEONASUL_NEVER && s->reference == 0.75f);
    DOES(beonasul_set_blend_func(&g, BEONASUL_SRC_ALPHA, BEONASUL_ONE), s->src == BEONASUL_SRC_ALPHA && s->dst == BEONASUL_ONE);
    DOES(beonasul_set_cull_face(&g, BEONASUL_FRONT), s->cull_mode == BEONASUL_FRONT);
    DOES(beonasul_set_front_face(&g, BEONASUL_CW), s->front_face == BEONASUL_CW);
    DOES(beonasul_set_fog(&g, BEONASUL_FOG_MODE, (float)BEONASUL_EXP2), s->fog_mode == BEONASUL_EXP2);
    DOES(beonasul_set_fog(&g, BEONASUL_FOG_DENSITY, 2), s->density == 2);
    DOES(beonasul_set_fog(&g, BEONASUL_FOG_START, 3), s->start == 3);
    DOES(beonasul_set_fog(&g, BEONASUL_FOG_END, 4), s->end == 4);
    REFUSES(beonasul_set_depth_func(&g, BEONASUL_FRONT), BEONASUL_INVALID_ENUM);
    CHECK(g.context.error == BEONASUL_INVALID_ENUM);
}

/* ---- draws */

static bool stands_at(int vertex, float x, float y, float z)
{
    return are_floats(beonasul_triangles(&g)[0].vertices[vertex].position, x, y, z, 1);
}

static void check_draws(void)
{
    static const uint32_t indices[6] = { 3, 1, 2, 0, 1, 2 };
    start();
    REFUSES(beonasul_draw_arrays(&g, BEONASUL_TRIANGLES, 0, 0, 3), BEONASUL_NO_VERTEX_ARRAY);
    DOES(beonasul_set_vertex_pointer(&g, 2, BEONASUL_BYTE, 0, BASE), true);
    DOES(beonasul_set_client_state(&g, BEONASUL_VERTEX_ARRAY, true), true);
    DOES(beonasul_set_color(&g, 1, 2, 3, 4), true);
    DOES(beonasul_set_multi_texcoord(&g, BEONASUL_TEXTURE1, 5, 6), true);
    DOES(beonasul_translate(&g, 0, 0, 7), true);
    DOES(beonasul_draw_arrays(&g, BEONASUL_TRIANGLES, 2, 1, 3), g.value == 1 && stands_at(0, 1, 0, 7) && stands_at(2, 1, 1, 7));
    CHECK(are_floats(beonasul_triangles(&g)->vertices[1].color, 1, 2, 3, 4) && beonasul_triangles(&g)->vertices[1].fog_depth == 7);
    CHECK(beonasul_triangles(&g)->vertices[2].texcoord[1].t == 6 && beonasul_triangles(&g)->vertices[2].texcoord[0].t == 0);
    DOES(beonasul_draw_elements(&g, BEONASUL_TRIANGLES, 0, indices, 6), g.value == 2 && stands_at(0, 1, 1, 7) && stands_at(1, 1, 0, 7));
    DOES(beonasul_draw_elements_from_guest(&g, BEONASUL_TRIANGLE_FAN, 0, 4, BEONASUL_UNSIGNED_BYTE, BASE + 8),
         g.value == 2 && stands_at(2, 0, 1, 7));
    DOES(beonasul_draw_elements(&g, BEONASUL_TRIANGLES, 0, NULL, 0), g.value == 0);
    REFUSES(beonasul_draw_arrays(&g, BEONASUL_TRIANGLES, 16, 0, 3), BEONASUL_STAGE_MASK);
    REFUSES(beonasul_draw_arrays(&g, BEONASUL_TRIANGLES, 0, 9, 3), BEONASUL_POSITION_UNREADABLE);
    REFUSES(beonasul_draw_arrays(&g, BEONASUL_LINES, 0, 0, 3), BEONASUL_NO_TRIANGLES);
    REFUSES(beonasul_draw_arrays(&g, 7, 0, 0, 3), BEONASUL_INVALID_ENUM);
    REFUSES(beonasul_draw_elements_from_guest(&g, BEONASUL_TRIANGLES, 0, 3, BEONASUL_UNSIGNED_SHORT, 8), BEONASUL_INDICES_UNREADABLE);
    g.out_len = 2 * BEONASUL_TRIANGLE_FLOATS - 1;
    REFUSES(beonasul_draw_elements(&g, BEONASUL_TRIANGLES, 0, indices, 6), BEONASUL_OUTPUT_TOO_SHORT);
    g.words_len = 11 + 5;
    REFUSES(beonasul_draw_elements(&g, BEONASUL_TRIANGLES, 0, indices, 6), BEONASUL_NO_RECORD);
    g.guest_base = 0xfffffff8;
    REFUSES(beonasul_draw_arrays(&g, BEONASUL_TRIANGLES, 0, 0, 3), BEONASUL_GUEST_TOO_LONG);
}

/* ---- enumerants: as many rising codes as a call knows are those that it knows */

static uint32_t call_source(struct beonasul *context, uint32_t code) { return beonasul_set_blend_func(context, code, BEONASUL_ONE); }
static uint32_t call_env(struct beonasul *context, uint32_t code) { return beonasul_tex_env(context, BEONASUL_TEXTURE_ENV_MODE, code); }
static uint32_t call_fog(struct beonasul *context, uint32_t code) { return beonasul_set_fog(context, BEONASUL_FOG_MODE, (float)code); }

/* The codes rise, and the call accepts them and no other code below 2^16. */
static bool knows(uint32_t (*call)(struct beonasul *, uint32_t), const uint32_t *codes, size_t count)
{
    size_t next = 0;
    for (uint32_t code = 0; code < 65536; code++) {
        const bool is_next = next < count && codes[next] == code;
        if ((call(&g, code) == BEONASUL_DONE) != is_next)
            return false;
        next += is_next;
    }
    return next == count;
}

#define KNOWS(call, ...) \
    do { \
        static const uint32_t codes[] = { __VA_ARGS__ }; \
        check(knows(call, codes, sizeof codes / sizeof *codes), __LINE__, #call ": " #__VA_ARGS__); \
    } while (0)

static void check_enumerants(void)
{
    start();
    KNOWS(beonasul_set_matrix_mode, BEONASUL_MODELVIEW, BEONASUL_PROJECTION, BEONASUL_TEXTURE);
    KNOWS(beonasul_set_depth_func, BEONASUL_NEVER, BEONASUL_LESS, BEONASUL_EQUAL, BEONASUL_LEQUAL, BEONASUL_GREATER, BEONASUL_NOTEQUAL,
          BEONASUL_GEQUAL, BEONASUL_ALWAYS);
    KNOWS(call_source, BEONASUL_ZERO, BEONASUL_ONE, BEONASUL_SRC_COLOR, BEONASUL_ONE_MINUS_SRC_COLOR, BEONASUL_SRC_ALPHA,
          BEONASUL_ONE_MINUS_SRC_ALPHA, BEONASUL_DST_ALPHA, BEONASUL_ONE_MINUS_DST_ALPHA, BEONASUL_DST_COLOR,
          BEONASUL_ONE_MINUS_DST_COLOR, BEONASUL_SRC_ALPHA_SATURATE);
    KNOWS(beonasul_set_cull_face, BEONASUL_FRONT, BEONASUL_BACK, BEONASUL_FRONT_AND_BACK);
    KNOWS(beonasul_set_front_face, BEONASUL_CW, BEONASUL_CCW);
    KNOWS(call_fog, BEONASUL_EXP, BEONASUL_EXP2, BEONASUL_LINEAR);
    KNOWS(call_env, BEONASUL_ADD, BEONASUL_BLEND, BEONASUL_REPLACE, BEONASUL_MODULATE, BEONASUL_DECAL, BEONASUL_COMBINE);
    for (uint32_t i = 0; i < 4; i++) {
        static const uint32_t units[4] = { BEONASUL_TEXTURE0, BEONASUL_TEXTURE1, BEONASUL_TEXTURE2, BEONASUL_TEXTURE3 };
        DOES(beonasul_set_multi_texcoord(&g, units[i], 8, 9), units[i] == 0x84C0 + i && g.context.attributes.pairs[i].s == 8);
    }
}

/* The first bytes of an element, taken as each type. */
static void check_types(void)
{
    static const uint8_t element[16] = { 0x81, 0x80, 0x80, 0xbf };
    static const struct { uint32_t type; float x; } types[6] = {
        { BEONASUL_BYTE, -127.0f }, { BEONASUL_UNSIGNED_BYTE, 129.0f }, { BEONASUL_SHORT, -32639.0f },
        { BEONASUL_UNSIGNED_SHORT, 32897.0f }, { BEONASUL_FLOAT, -8421505.0f / 8388608.0f }, { BEONASUL_FIXED, -1082097536.0f / 65536.0f },
    };
    static const uint32_t indices[3] = { 0, 0, 0 };
    start();
    g.guest = element;
    g.guest_len = sizeof element;
    DOES(beonasul_set_client_state(&g, BEONASUL_VERTEX_ARRAY, true), true);
    for (int i = 0; i < 6; i++) {
        DOES(beonasul_set_vertex_pointer(&g, 2, types[i].type, 0, BASE), true);
        DOES(beonasul_draw_elements(&g, BEONASUL_TRIANGLES, 0, indices, 3), beonasul_triangles(&g)->vertices[0].position[0] == types[i].x);
    }
}

static void check_modes(void)
{
    static const uint32_t modes[7] = { BEONASUL_POINTS, BEONASUL_LINES, BEONASUL_LINE_LOOP, BEONASUL_LINE_STRIP,
                                       BEONASUL_TRIANGLES, BEONASUL_TRIANGLE_STRIP, BEONASUL_TRIANGLE_FAN };
    start();
    DOES(beonasul_set_vertex_pointer(&g, 2, BEONASUL_BYTE, 0, BASE), true);
    DOES(beonasul_set_client_state(&g, BEONASUL_VERTEX_ARRAY, true), true);
    for (uint32_t i = 0; i < 7; i++) {
        const uint32_t number = beonasul_draw_arrays(&g, modes[i], 0, 0, 4);
        CHECK(modes[i] == i && number == (i < 4 ? (uint32_t)BEONASUL_NO_TRIANGLES : (uint32_t)BEONASUL_DONE));
        CHECK(g.value == (i < 4 ? 0u : i == 4 ? 1u : 2u));
    }
}

/* ---- lists, and contexts that are none */

static beonasul_reply run(const uint32_t *words, size_t n)
{
    return beonasul_run(&g.context, store, BEONASUL_STORE_BYTES, words, n, guest, sizeof guest, out, ROOM);
}

static bool is_reply(beonasul_reply r, uint32_t number, size_t value, size_t made)
{
    return r.number == number && r.value == value && r.made == made;
}

static void check_lists(void)
{
    static const uint32_t words[8] = { BEONASUL_RECORD_PUSH, 0, BEONASUL_RECORD_GEN, 2, 5, 0, 0x99, 0 };
    start();
    CHECK(is_reply(run(words, 0), BEONASUL_DONE, 0, 0));
    CHECK(is_reply(run(words, 6), BEONASUL_DONE, 1, 2) && g.context.stacks.modelview.depth == 1);
    CHECK(is_reply(run(words, 8), BEONASUL_NO_RECORD, 0, 2) && g.context.stacks.modelview.depth == 2 && g.context.buffers.next == 11);
    CHECK(is_reply(run(words, 5), BEONASUL_NO_RECORD, 0, 1) && g.context.stacks.modelview.depth == 3);
    g.context.mode = 7;
    CHECK(is_reply(run(words, 6), BEONASUL_NOT_SOUND, 0, 0) && g.context.stacks.modelview.depth == 3);
    start();
    g.context.settings.active_texture = 4;
    REFUSES(beonasul_push_matrix(&g), BEONASUL_NOT_SOUND);
}

static void *check_all(void *unused)
{
    check_matrices();
    check_rotations();
    check_buffers();
    check_arrays();
    check_settings();
    check_draws();
    check_enumerants();
    check_types();
    check_modes();
    check_lists();
    return unused;
}

int main(int argc, char **argv)
{
    pthread_attr_t attributes;
    pthread_t thread;
    if (argc != 2) {
        fputs("usage: calls TRACE\n", stderr);
        return 2;
    }
    trace_name = argv[1];
    if (pthread_attr_init(&attributes) != 0 || pthread_attr_setstacksize(&attributes, STACK_BYTES) != 0 ||
        pthread_create(&thread, &attributes, check_all, NULL) != 0 || pthread_join(thread, NULL) != 0)
        return 2;
    printf("calls: %d checks, %d of them fail\n", checks, failures);
    return failures == 0 ? 0 : 1;
}
