// Tries the C interface: one model, each reading answered and refused. Says what differs, and how many.
#include "glb.h"
#include <stdio.h>
#include <string.h>

static uint8_t file[30100];
static uint32_t t[GLB_WORDS];
static int wrong;

#define IS(a, b) is(__LINE__, #a, (long long)(a), (long long)(b))
static void is(int line, const char *what, long long got, long long wanted) {
    if (got == wanted) return;
    printf("line %d: %s is %lld, not %lld\n", line, what, got, wanted);
    wrong++;
}

// 5,000 VEC3 of 5122 from byte 100 on; 128 nodes in one chain.
static void make_model(void) {
    for (size_t i = 0; i < sizeof file; i++) file[i] = i * 7;
    t[GLB_BUFFERS] = t[GLB_VIEWS] = t[GLB_ACCESSORS] = t[GLB_SCENES] = 1, t[GLB_NODES] = 128;
    t[GLB_BUFFER_START] = 100, t[GLB_BUFFER_LENGTH] = 30000;
    t[GLB_VIEW + GLB_VIEW_BYTE_LENGTH] = 30000;
    uint32_t *a = t + GLB_ACCESSOR;
    a[GLB_ACCESSOR_HAS_VIEW] = 77; // any flag that is not 0
    a[GLB_ACCESSOR_COMPONENT_TYPE] = 5122, a[GLB_ACCESSOR_COUNT] = 5000, a[GLB_ACCESSOR_TYPE] = 3;
    for (int i = 0; i < 127; i++) {
        uint32_t *list = t + GLB_NODE + GLB_LIST_SIZE * i;
        list[GLB_LIST_START] = i, list[GLB_LIST_LENGTH] = 1, t[GLB_CHILDREN + i] = i + 1;
    }
    t[GLB_SCENE_LIST + GLB_LIST_LENGTH] = 1;
}

static void components(void) {
    int64_t v;
    for (uint32_t e = 0; e < 5000; e++)
        for (uint32_t c = 0; c < 3; c++) {
            int16_t x;
            memcpy(&x, file + 100 + 6 * e + 2 * c, 2);
            IS(glb_component(file, sizeof file, t, 0, e, c, &v), 0), IS(v, x);
        }
    v = 7, IS(glb_component(file, sizeof file, t, 1, 0, 0, &v), GLB_NO_ACCESSOR), IS(v, 0);
    v = 7, IS(glb_component(file, sizeof file, t, 0, 5000, 0, &v), GLB_NO_ELEMENT), IS(v, 0);
    v = 7, IS(glb_component(file, sizeof file, t, 0, 0, 3, &v), GLB_NO_COMPONENT), IS(v, 0);
    v = 7, IS(glb_component(file, sizeof file - 1, t, 0, 0, 0, &v), GLB_UNFIT), IS(v, 0);
}

static void views(void) {
    uint64_t place[2];
    IS(glb_view(file, sizeof file, t, 0, place), 0), IS(place[0], 100), IS(place[1], 30000);
    IS(glb_view(file, sizeof file, t, 1, place), GLB_NO_VIEW), IS(place[0], 0), IS(place[1], 0);
    place[0] = 7, IS(glb_view(file, sizeof file - 1, t, 0, place), GLB_UNFIT), IS(place[0], 0), IS(place[1], 0);
}

// A word over 65,535 in a list is refused, also where its low 16 bits would do.
static void wide(uint32_t word) {
    uint16_t list[128];
    uint32_t count = 7;
    t[word] += 65536;
    IS(glb_walk(t, 0, list, 128, &count), GLB_UNFIT_GRAPH), IS(count, 0);
    t[word] -= 65536;
}

static void walks(void) {
    uint16_t list[130];
    uint32_t count;
    list[128] = 9;
    IS(glb_walk(t, 0, list, 130, &count), 0), IS(count, 128), IS(list[128], 9);
    for (int i = 0; i < 128; i++) IS(list[i], i);
    list[0] = 99, IS(glb_walk(t, 0, list, 127, &count), GLB_NO_ROOM), IS(count, 0), IS(list[0], 99);
    count = 7, IS(glb_walk(t, 1, list, 130, &count), GLB_NO_SCENE), IS(count, 0);
    wide(GLB_NODE), wide(GLB_NODE + 1), wide(GLB_CHILDREN), wide(GLB_SCENE_LIST), wide(GLB_ROOTS);
}

int main(void) {
    make_model();
    components();
    views();
    walks();
    printf("%d wrong\n", wrong);
    return wrong != 0;
}
