// Times the library from C: best of several runs, in nanoseconds a byte, beside a plain loop over the same bytes.
#include <pthread.h>
#include <stdbool.h>
#include <stdint.h>
#include <stdio.h>
#include <stdlib.h>
#include <string.h>
#include <time.h>

uint32_t time_container(const uint8_t *file, size_t length);
uint32_t time_text(const uint8_t *chunk, size_t length);
uint32_t time_document(const uint8_t *chunk, size_t length);
uint32_t time_check(const uint8_t *file, size_t length);

// The records, as the library has them.
typedef struct { uint32_t buffer, byte_offset, byte_length, byte_stride; bool has_byte_stride; uint32_t target; bool has_target; } BufferView;
typedef struct { uint32_t count, indices_view, indices_offset, indices_type, values_view, values_offset; } Sparse;
typedef struct {
    uint32_t buffer_view; bool has_buffer_view; uint32_t byte_offset, component_type, count, element_type; bool normalized, has_sparse; Sparse sparse;
} Accessor;
typedef struct { uint16_t start, length; } List;
typedef struct { uint32_t buffers, views, accessors, nodes, scenes, buffer_start, buffer_length; } Extent;
typedef struct { Extent extent; Accessor accessor; BufferView own, indices, values; } Selection;
typedef struct {
    uint32_t buffers, views, accessors, nodes, scenes, buffer_start, buffer_length, scene; bool has_scene;
    BufferView view_records[64]; Accessor accessor_records[128]; List node_lists[128]; uint16_t children[128]; List scene_lists[8]; uint16_t roots[1024];
} Tables;
typedef struct { uint32_t number; int64_t value; } Reading;
typedef struct { uint32_t number; size_t count; } Walked;

Reading time_component_in(const uint8_t *file, size_t length, Selection s, uint32_t element, uint32_t component);
uint32_t time_elements(const uint8_t *file, size_t length, Selection s, uint32_t component, uint32_t n);
uint32_t time_elements_beside(const uint8_t *file, size_t length, Selection s, uint32_t component, uint32_t n);
Reading time_component(const uint8_t *file, size_t length, Tables t, uint32_t accessor, uint32_t element, uint32_t component);
Walked time_walk(Tables t, uint32_t scene, uint16_t *list, size_t length);

static double now(void) {
    struct timespec t;
    clock_gettime(CLOCK_MONOTONIC, &t);
    return t.tv_sec * 1e9 + t.tv_nsec;
}

// One byte at a time: the floor.
__attribute__((noinline, optimize("no-tree-vectorize"))) static uint32_t plain(const uint8_t *s, size_t n) {
    uint32_t sum = 0;
    for (size_t i = 0; i < n; i++) sum += s[i];
    return sum;
}

static double best(uint32_t (*f)(const uint8_t *, size_t), const uint8_t *s, size_t n, int runs, uint32_t *result) {
    double least = 1e30;
    for (int k = 0; k < runs; k++) {
        double from = now();
        *result = f(s, n);
        double took = now() - from;
        if (took < least) least = took;
    }
    return least;
}

// A chunk of 65,536 bytes: an array of accessors, few names to an object.
static size_t accessors(char *s) {
    size_t n = sprintf(s, "{\"asset\":{\"version\":\"2.0\"},\"accessors\":[");
    for (int i = 0; n < 65300; i++)
        n += sprintf(s + n, "%s{\"bufferView\":%d,\"byteOffset\":%d,\"componentType\":5126,\"count\":%d,\"type\":\"VEC3\"}", i ? "," : "", i % 64, 12 * i, i + 1);
    n += sprintf(s + n, "]}");
    while (n < 65536) s[n++] = ' ';
    return n;
}

// One object of so many members, names of one length with a long common start.
static size_t members(char *s, int count) {
    size_t n = sprintf(s, "{");
    for (int i = 0; i < count; i++) n += sprintf(s + n, "%s\"exporter_member_%04d\":%d", i ? "," : "", i, i);
    return n + sprintf(s + n, "}");
}

static void word(uint8_t *s, uint32_t x) {
    for (int k = 0; k < 4; k++) s[k] = x >> (8 * k);
}

// A file with this JSON text and a BIN chunk of so many bytes, 0 for no BIN chunk; its length. Both are multiples of 4.
static size_t container(uint8_t *file, const char *text, size_t json, size_t bin) {
    size_t n = 20 + json + (bin ? 8 + bin : 0);
    word(file, 0x46546C67), word(file + 4, 2), word(file + 8, n), word(file + 12, json), word(file + 16, 0x4E4F534A);
    memcpy(file + 20, text, json);
    if (bin) word(file + 20 + json, bin), word(file + 24 + json, 0x004E4942), memset(file + 28 + json, 0, bin);
    return n;
}

// A model of 64 views, 128 accessors, 128 nodes in a chain, and other members to fill `size` bytes, a multiple of 4.
static size_t hull(char *s, size_t size) {
    size_t n = sprintf(s, "{\"asset\":{\"version\":\"2.0\"},\"buffers\":[{\"byteLength\":4096}],\"scenes\":[{\"nodes\":[0]}],\"scene\":0,\"bufferViews\":[");
    for (int i = 0; i < 64; i++) n += sprintf(s + n, "%s{\"buffer\":0,\"byteOffset\":%d,\"byteLength\":64}", i ? "," : "", 64 * i);
    n += sprintf(s + n, "],\"accessors\":[");
    for (int i = 0; i < 128; i++)
        n += sprintf(s + n, "%s{\"bufferView\":%d,\"componentType\":5126,\"count\":5,\"type\":\"VEC3\"}", i ? "," : "", i % 64);
    n += sprintf(s + n, "],\"nodes\":[");
    for (int i = 0; i < 128; i++) n += i < 127 ? sprintf(s + n, "{\"children\":[%d]},", i + 1) : sprintf(s + n, "{}]");
    n += sprintf(s + n, ",\"extras\":[");
    for (int i = 0; n + 80 < size; i++) n += sprintf(s + n, "%s{\"name\":\"station %d\",\"x\":%d.5}", i ? "," : "", i, i);
    n += sprintf(s + n, "]}");
    while (n < size) s[n++] = ' ';
    return n;
}

static uint8_t model[60100];
static Selection selection;
static Tables tables;
static int64_t sum;

// A file of 5,000 VEC3 of 5126, and its tables; nodes in one chain.
static void make_model(void) {
    for (size_t i = 0; i < sizeof model; i++) model[i] = i * 7;
    tables.buffers = tables.views = tables.accessors = tables.scenes = 1;
    tables.nodes = 128, tables.buffer_start = 100, tables.buffer_length = 60000;
    tables.view_records[0].byte_length = 60000;
    Accessor *a = &tables.accessor_records[0];
    a->has_buffer_view = true, a->component_type = 5126, a->count = 5000, a->element_type = 3;
    for (int i = 0; i < 127; i++) tables.node_lists[i] = (List){i, 1}, tables.children[i] = i + 1;
    tables.scene_lists[0] = (List){0, 1};
    selection.extent = (Extent){1, 1, 1, 128, 1, 100, 60000};
    selection.accessor = *a, selection.own = tables.view_records[0];
}

__attribute__((noinline)) static uint32_t plain_component(const uint8_t *p, uint32_t e, uint32_t c) {
    uint32_t v;
    memcpy(&v, p + 12 * e + 4 * c, 4);
    return v;
}

// The same with the selection by value, as the library's function has it, and nothing tested.
__attribute__((noipa)) static Reading plain_in(const uint8_t *file, size_t length, Selection s, uint32_t e, uint32_t c) {
    uint32_t v;
    memcpy(&v, file + s.extent.buffer_start + 12 * e + 4 * c, 4);
    return (Reading){length == 0, v};
}

// The same with the tests of 63, 61 and 62 in C, for an accessor with a view and without sparse, of no matrix.
__attribute__((noipa)) static Reading tested_in(const uint8_t *file, size_t length, Selection s, uint32_t e, uint32_t c) {
    const Reading unfit = {63, 0};
    const Extent *x = &s.extent;
    const Accessor *a = &s.accessor;
    const BufferView *v = &s.own;
    uint32_t t = a->component_type, type = a->element_type;
    uint32_t size = t == 5120 || t == 5121 ? 1 : t == 5122 || t == 5123 ? 2 : t == 5125 || t == 5126 ? 4 : 0;
    uint32_t element = size * type, stride = v->has_byte_stride ? v->byte_stride : element;
    if (a->has_sparse || !a->has_buffer_view || type > 4) return (Reading){99, 0};
    if (x->buffers > 1 || x->views > 64 || x->accessors > 128 || x->nodes > 128 || x->scenes > 8) return unfit;
    if (length < (uint64_t)x->buffer_start + x->buffer_length) return unfit;
    if (size == 0 || type == 0 || a->count == 0 || (a->normalized && size == 4)) return unfit;
    if (a->buffer_view >= x->views || v->buffer != 0 || x->buffers <= v->buffer) return unfit;
    if (v->byte_length == 0 || x->buffer_length < (uint64_t)v->byte_offset + v->byte_length) return unfit;
    if (v->has_byte_stride && (stride % 4 || stride < 4 || stride > 252)) return unfit;
    if (v->has_target && v->target != 34962 && v->target != 34963) return unfit;
    if (stride < element || (a->byte_offset & (size - 1)) || ((a->byte_offset + v->byte_offset) & (size - 1))) return unfit;
    if (v->byte_length < a->byte_offset + (uint64_t)stride * (a->count - 1) + element) return unfit;
    if (a->count <= e) return (Reading){61, 0};
    if (type <= c) return (Reading){62, 0};
    const uint8_t *p = file + x->buffer_start + v->byte_offset + a->byte_offset + (uint64_t)stride * e + size * c;
    uint32_t w = 0;
    if (size == 1) return (Reading){0, t == 5120 ? (int8_t)*p : *p};
    if (size == 2) return memcpy(&w, p, 2), (Reading){0, t == 5122 ? (int16_t)w : (int64_t)w};
    return memcpy(&w, p, 4), (Reading){0, w};
}

// The best time of one call, over `count` of the 15,000 components; 0 the plain read, 1 by selection, 2 by tables, 3 by selection
// untested, 4 by selection tested in C.
static double best_component(int how, uint32_t count, int runs) {
    double least = 1e30;
    for (int k = 0; k < runs; k++) {
        double from = now();
        for (uint32_t i = 0; i < count; i++) {
            uint32_t e = i / 3, c = i % 3;
            if (how == 0) sum += plain_component(model + 100, e, c);
            else if (how == 1) sum += time_component_in(model, sizeof model, selection, e, c).value;
            else if (how == 2) sum += time_component(model, sizeof model, tables, 0, e, c).value;
            else if (how == 3) sum += plain_in(model, sizeof model, selection, e, c).value;
            else sum += tested_in(model, sizeof model, selection, e, c).value;
        }
        double took = (now() - from) / count;
        if (took < least) least = took;
    }
    return least;
}

typedef uint32_t Loop(const uint8_t *, size_t, Selection, uint32_t, uint32_t);

// How many of the first n elements are not 0 as this component, by plain reads of the same bytes.
__attribute__((noipa, optimize("no-tree-vectorize"))) static uint32_t plain_elements(const uint8_t *file, size_t length, Selection s, uint32_t component, uint32_t n) {
    uint32_t count = 0, v;
    for (uint32_t i = 0; i < n; i++) {
        memcpy(&v, file + s.extent.buffer_start + 12 * i + 4 * component, 4);
        if (v != 0) count++;
    }
    return length == 0 ? 0 : count;
}

// The best time of one component in a loop over all 5,000 elements.
static void loop_line(const char *name, Loop *f) {
    double least = 1e30;
    uint32_t count = 0;
    for (int k = 0; k < 900; k++) {
        double from = now();
        count = f(model, sizeof model, selection, k % 3, 5000);
        double took = (now() - from) / 5000;
        if (took < least) least = took;
    }
    printf("%-21s %.2f ns a component (%u not 0)\n", name, least, count);
}

static uint8_t *checked;
static size_t checked_length;

static void *check_on(void *room) {
    if (room) *(uint32_t *)room = time_check(checked, checked_length);
    return NULL;
}

static void *walk_on(void *room) {
    uint16_t list[128];
    if (room) *(Walked *)room = time_walk(tables, 0, list, 128);
    return NULL;
}

// The bytes of a painted stack that a thread touched.
static size_t stack_used(void *(*run)(void *), void *room) {
    size_t size = 1 << 20;
    uint8_t *stack = aligned_alloc(4096, size);
    memset(stack, 0xA5, size);
    pthread_attr_t attr;
    pthread_t thread;
    pthread_attr_init(&attr);
    pthread_attr_setstack(&attr, stack, size);
    pthread_create(&thread, &attr, run, room);
    pthread_join(thread, NULL);
    size_t low = 0;
    while (low < size && stack[low] == 0xA5) low++;
    free(stack);
    return size - low;
}

static void check_line(const char *name, int runs) {
    uint32_t r;
    double took = best(time_check, checked, checked_length, runs, &r);
    printf("check, %-14s %.2f us (verdict %u, %zu bytes)\n", name, took / 1e3, r, checked_length);
}

// Check of a file of 48 bytes, of 16 and 64 KB of JSON, and of 16 MiB.
static void check_lines(char *s) {
    checked = malloc(16777216);
    checked_length = container(checked, "{\"asset\":{\"version\":\"2.0\"}} ", 28, 0);
    check_line("48 bytes", 2000);
    checked_length = container(checked, s, hull(s, 16384), 4096);
    check_line("JSON 16 KB", 500);
    checked_length = container(checked, s, hull(s, 65536), 4096);
    check_line("JSON 64 KB", 300);
    uint32_t verdict;
    size_t idle = stack_used(check_on, NULL), check = stack_used(check_on, &verdict);
    printf("stack of that check   %zu bytes (verdict %u)\n", check - idle, verdict);
    const char *text = "{\"asset\":{\"version\":\"2.0\"},\"buffers\":[{\"byteLength\":16777124}]} ";
    checked_length = container(checked, text, 64, 16777124);
    check_line("16 MiB", 300);
    free(checked);
}

int main(void) {
    static char s[1 << 17];
    uint32_t r, q;
    size_t n = accessors(s);
    double floor = best(plain, (uint8_t *)s, n, 2000, &q) / n;
    double text = best(time_text, (uint8_t *)s, n, 500, &r) / n;
    printf("plain loop            %.2f ns a byte (sum %u)\n", floor, q);
    printf("rules 9 to 13         %.2f ns a byte, %.1f times the plain loop (number %u, %zu bytes)\n", text, text / floor, r, n);
    double document = best(time_document, (uint8_t *)s, n, 300, &r) / n;
    printf("rules 9 to 18         %.2f ns a byte, %.2f of them for 14 to 18 and the records (number %u)\n", document, document - text, r);
    n = members(s, 900);
    double names = best(time_text, (uint8_t *)s, n, 50, &r);
    printf("one object, 900 names %.3f ms (number %u, %d pairs)\n", names / 1e6, r, 900 * 899 / 2);
    size_t size = 16777216;
    uint8_t *file = calloc(size, 1);
    word(file, 0x46546C67), word(file + 4, 2), word(file + 8, size);
    word(file + 12, 4), word(file + 16, 0x4E4F534A);
    // the rest: empty chunks of type 0, 8 bytes each
    double took = best(time_container, file, size, 20, &r);
    printf("rules 1 to 8          %.2f ms for 16 MiB of empty chunks, %.2f ns a chunk (number %u)\n", took / 1e6, took / ((size - 24) / 8), r);
    free(file);
    make_model();
    printf("component, plain read %.2f ns\n", best_component(0, 15000, 500));
    printf("the same, by value    %.2f ns\n", best_component(3, 15000, 500));
    printf("the same, tested in C %.2f ns\n", best_component(4, 15000, 500));
    printf("component_in, from C  %.2f ns\n", best_component(1, 15000, 300));
    loop_line("loop, plain read", plain_elements);
    loop_line("loop, component_in", time_elements);
    loop_line("the same, beside more", time_elements_beside);
    printf("component, by tables  %.0f ns\n", best_component(2, 1500, 100));
    Walked w;
    size_t idle = stack_used(walk_on, NULL), walk = stack_used(walk_on, &w);
    uint16_t list[128];
    double least = 1e30;
    for (int k = 0; k < 200; k++) {
        double from = now();
        w = time_walk(tables, 0, list, 128);
        if (now() - from < least) least = now() - from;
    }
    printf("walk, 128 in a chain  %.1f us (number %u, count %zu), %zu bytes of stack\n", least / 1e3, w.number, w.count, walk - idle);
    check_lines(s);
    return sum == 42;
}
