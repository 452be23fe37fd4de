/* Permits for a gate: bytes judged, an element handed back, a chain found.
 *
 * What the words mean stands in docs/FORMAT.md: where bytes are ill ("Where bytes are malformed"), what a chain is
 * ("Chains"), and each rejection's number and place ("What is rejected").
 *
 * Each function answers from its arguments alone. None allocates, keeps anything from call to call, or writes
 * anywhere but into the output buffer of `chain`; several threads may call them at once. The stack that a call takes is bounded: the reader behind `judge`
 * and `piece` calls itself once for each level of constructed elements, eight at most.
 * Lengths count items of the type pointed to. Pointers must not be null, even where a length is 0, must be aligned for
 * their type, and must point to so many items, which nobody writes to during the call. The output buffer must not
 * overlap anything else that is passed, to this call or to another at the same time.
 */
#ifndef PERMIT_H
#define PERMIT_H

#include <stddef.h>
#include <stdint.h>

#ifdef __cplusplus
extern "C" {
#endif

/* A part of the bytes: where it begins, and how many bytes it has. */
struct permit_span {
    uint64_t at;
    uint64_t len;
};

/* What the search answers: 0 or the number of the rejection, and how many certificates the chain has. */
struct permit_chain {
    uint64_t rejection;
    uint64_t len;
};

/* Whether the bytes are a row of elements: 0 if they are; k + 1 if they are ill at k, the first byte after which no
 * bytes behind could make them well-formed, or how many bytes there are if only their end comes too soon. */
uint64_t judge(const uint8_t *bytes, size_t len);

/* The element to which the path leads, tag and length included, as a part of the bytes. `at` 0 with `len` 0: the
 * bytes are malformed, the path has no number, or it leads to nothing. */
struct permit_span piece(const uint8_t *bytes, size_t len, const uint64_t *path, size_t steps);

/* A shortest chain from the certificate with the number `first` up to a trust anchor on a day, among n
 * certificates, 1 to 200; if there are several, any of them.
 * Six numbers for each certificate: subject, issuer, first day, last day, 1 if it may issue else 0, path length.
 * A mark, 0 or 1, for each two certificates: that the signature of a under b is valid stands at a n + b. A mark for
 * each certificate: whether it is a trust anchor. The output buffer has a number for each certificate.
 * Answers rejection 0 and how many certificates the chain has, the chain then standing at the front of the output
 * buffer, `first` first, the rest of which is as it was; or rejection 0 and `len` 0 if there is no chain; or the number
 * of the first rejection that applies and `len` 0: 1 the certificates, 2 the marks, 3 `first` is not there, 4 the size
 * of the output buffer. Where no chain is answered the output buffer is as it was. */
struct permit_chain chain(uint64_t n, const uint32_t *certificates, size_t certificates_len, const uint8_t *signatures,
                          size_t signatures_len, const uint8_t *anchors, size_t anchors_len, uint64_t day,
                          uint64_t first, uint16_t *out, size_t out_len);

#ifdef __cplusplus
}
#endif

#endif
