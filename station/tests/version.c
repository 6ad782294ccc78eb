/* version: whether the header that this is compiled with and the library fit. Exit status 0 if they do, 1 if not; then nothing was done. */
#include <beonasul.h>
#include <stdio.h>

static uint8_t store[BEONASUL_STORE_BYTES];
static float out[BEONASUL_TRIANGLE_FLOATS];
static struct beonasul g;

int main(void)
{
    const beonasul_layout_t library = beonasul_layout();
    const bool fits = beonasul_start(&g, store, out, BEONASUL_TRIANGLE_FLOATS);
    printf("header: version %u, a context of %zu bytes; library: version %u, %u bytes: %s\n", (unsigned)BEONASUL_VERSION,
           sizeof(beonasul_context), library.version, library.context, fits ? "they fit" : "they do not fit");
    if (!fits && (g.store != NULL || g.context.mode != 0))
        return 2;
    return fits ? 0 : 1;
}
