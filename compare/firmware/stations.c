/* An example for firmware: checks a hull model and prints the stations of an accessor, one element to a line.
 *
 *   stations ACCESSOR < model.glb
 *
 * Nothing is allocated: the file and its tables lie in static memory. A component of componentType 5126 comes as its 32
 * bits, which this program prints as the float that they are. */
#include "glb.h"
#include <stdio.h>
#include <stdlib.h>
#include <string.h>

static uint8_t file[1 << 20];
static uint32_t tables[4000];

/* The componentType of an accessor, from its record in the tables. */
static uint32_t component_type(uint32_t accessor) {
    return tables[528 + 16 * accessor + 3];
}

static void print(int64_t value, uint32_t type) {
    uint32_t bits = (uint32_t)value;
    float number;
    memcpy(&number, &bits, sizeof number);
    if (type == 5126) printf(" %g", number);
    else printf(" %lld", (long long)value);
}

/* Prints one element, component by component until there is none (62). The answer is the first number. */
static uint32_t print_element(size_t length, uint32_t accessor, uint32_t element) {
    int64_t value;
    uint32_t first = glb_component(file, length, tables, accessor, element, 0, &value);
    if (first != 0) return first;
    printf("%u:", element);
    for (uint32_t c = 0; glb_component(file, length, tables, accessor, element, c, &value) == 0; c++)
        print(value, component_type(accessor));
    printf("\n");
    return 0;
}

int main(int words, char **word) {
    uint32_t accessor = words > 1 ? (uint32_t)strtoul(word[1], NULL, 10) : 0, item, number, element = 0;
    size_t length = fread(file, 1, sizeof file, stdin);
    uint32_t verdict = glb_check(file, length, tables, &item);
    if (verdict != 0) {
        printf("refused: rule %u, item %u\n", verdict, item);
        return 1;
    }
    while ((number = print_element(length, accessor, element)) == 0) element++;
    if (number == 61) return 0; /* past the last element */
    printf("no reading: %u\n", number);
    return 1;
}
