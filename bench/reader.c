/* A plain hand-written reader in C, to compare with: whether bytes are a row of elements. */
#include <stddef.h>
#include <stdint.h>

static int row(const uint8_t *b, size_t len, int depth)
{
    size_t at = 0;
    while (at < len) {
        if (len - at < 2)
            return 0;
        uint8_t tag = b[at], first = b[at + 1];
        size_t n, start;
        if (first < 128) {
            n = first;
            start = at + 2;
        } else if (first == 129) {
            if (len - at < 3 || b[at + 2] < 128)
                return 0;
            n = b[at + 2];
            start = at + 3;
        } else if (first == 130) {
            if (len - at < 4 || b[at + 2] == 0)
                return 0;
            n = (size_t)b[at + 2] << 8 | b[at + 3];
            start = at + 4;
        } else {
            return 0;
        }
        if (n > len - start)
            return 0;
        if (tag >= 128 && (depth == 0 || !row(b + start, n, depth - 1)))
            return 0;
        at = start + n;
    }
    return 1;
}

int c_judge(const uint8_t *bytes, size_t len)
{
    return row(bytes, len, 8);
}
