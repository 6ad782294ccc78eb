/* A first program: three positions in guest bytes, moved by 1 along x and drawn as one triangle. */
#include <beonasul.h>
#include <stdio.h>

static uint8_t store[BEONASUL_STORE_BYTES];
static float out[BEONASUL_TRIANGLE_FLOATS];
static const uint8_t guest[6] = { 0, 0, 1, 0, 0, 1 }; /* (0, 0), (1, 0), (0, 1), a byte for each x and y */

int main(void)
{
    struct beonasul g;
    if (!beonasul_start(&g, store, out, BEONASUL_TRIANGLE_FLOATS))
        return 1;
    g.guest_base = 4096, g.guest = guest, g.guest_len = sizeof guest;
    beonasul_set_vertex_pointer(&g, 2, BEONASUL_BYTE, 0, 4096);
    beonasul_set_client_state(&g, BEONASUL_VERTEX_ARRAY, true);
    beonasul_translate(&g, 1.0f, 0.0f, 0.0f);
    const uint32_t number = beonasul_draw_arrays(&g, BEONASUL_TRIANGLES, 0, 0, 3);
    printf("%u %zu\n", number, g.value);
    const beonasul_vertex *corner = beonasul_triangles(&g)->vertices;
    for (int i = 0; i < 3; i++)
        printf("%08x %08x\n", beonasul_bits(corner[i].position[0]), beonasul_bits(corner[i].position[1]));
}
