/* A gate's use of the library: a permit judged, its subject looked up, and a chain found. */
#include "permit.h"
#include <stdio.h>
#include <string.h>

static int passed, failed;

static void expect(const char *what, int holds)
{
    if (holds) {
        passed++;
    } else {
        failed++;
        printf("gate.c: failed: %s\n", what);
    }
}

static void judges(void)
{
    static const uint8_t permit[] = {0x80, 0x12, 1, 1, 1, 2, 1, 2, 3, 1, 100, 4, 1, 200, 5, 1, 0, 6, 1, 0};
    static const uint8_t long_way[] = {5, 129, 2, 7, 8};
    static const uint8_t too_soon[] = {5, 3, 7, 8};
    expect("a permit is well-formed", judge(permit, sizeof permit) == 0);
    expect("no bytes are well-formed", judge(permit, 0) == 0);
    expect("a length written the long way is ill at 2", judge(long_way, sizeof long_way) == 3);
    expect("an end too soon is ill at the end", judge(too_soon, sizeof too_soon) == 5);
}

static void hands_back(void)
{
    static const uint8_t row[] = {128, 5, 1, 1, 65, 2, 0, 5, 2, 7, 8};
    const uint64_t inner[] = {0, 1}, outer[] = {1, 0};
    struct permit_span part = piece(row, sizeof row, inner, 2);
    expect("the element by 0 1 is the sixth and seventh byte", part.at == 5 && part.len == 2);
    expect("by 1 0 there is nothing", piece(row, sizeof row, outer, 2).len == 0);
    expect("by no number there is nothing", piece(row, sizeof row, inner, 0).len == 0);
}

static void finds(void)
{
    uint32_t certificates[] = {1, 2, 100, 200, 0, 0, 2, 3, 100, 200, 1, 0, 2, 4, 100, 200, 1, 3, 4, 4, 100, 200, 1, 5};
    const uint8_t signatures[] = {0, 0, 0, 0, 1, 0, 0, 0, 1, 0, 0, 0, 0, 0, 1, 1};
    const uint8_t anchors[] = {0, 0, 0, 1};
    uint16_t out[] = {9, 9, 9, 9};
    struct permit_chain found = chain(4, certificates, 24, signatures, 16, anchors, 4, 120, 0, out, 4);
    expect("the chain from 0 is 0 2 3",
           found.rejection == 0 && found.len == 3 && out[0] == 0 && out[1] == 2 && out[2] == 3 && out[3] == 9);
    certificates[23] = 0;
    memset(out, 0, sizeof out);
    found = chain(4, certificates, 24, signatures, 16, anchors, 4, 120, 0, out, 4);
    expect("with path length 0 at the top there is none", found.rejection == 0 && found.len == 0 && out[1] == 0);
    expect("a certificate that isn't there is rejected",
           chain(4, certificates, 24, signatures, 16, anchors, 4, 120, 4, out, 4).rejection == 3);
    expect("a buffer too short is rejected",
           chain(4, certificates, 24, signatures, 16, anchors, 4, 120, 0, out, 3).rejection == 4);
}

int main(void)
{
    judges();
    hands_back();
    finds();
    printf("%d passed, %d failed\n", passed, failed);
    return failed == 0 ? 0 : 1;
}
