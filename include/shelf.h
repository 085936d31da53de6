/* shelf.h: what the program `shelf` answers, for callers in other languages.
 *
 * An order or question is TOML. Files are PEM blocks one after another, or the DER of one value (docs/shelf.md); a request in
 * them can't add to the order. The answer, octet for octet what the program writes, is put at the front of a buffer that the caller
 * lends, followed by the lines that the program writes to standard error.
 *
 * The library keeps nothing between calls, touches nothing but its arguments and the heap (malloc, realloc, free), and may
 * be called from several threads at once. No pointer may be null, not even of no octets; no input may overlap the buffer.
 */
#ifndef SHELF_H
#define SHELF_H

#include <stddef.h>
#include <stdint.h>

#ifdef __cplusplus
extern "C" {
#endif

enum shelf_status {
    SHELF_DONE = 0,          /* the buffer begins with the answer */
    SHELF_TOO_LONG = 3,      /* the inputs have more than 268,435,456 octets together */
    SHELF_NO_ORDER = 4,      /* the inputs can't be read: there are only lines, which say why */
    SHELF_REFUSED = 5,       /* what the order asks for can't be done: the same; from shelf_path, the path is invalid */
    SHELF_OUT_OF_MEMORY = 7, /* memory was refused */
    SHELF_NO_ROOM = 8        /* answer and lines don't fit: call again with room for `length + told` octets */
};

/* How a call ended, how many octets the answer has, and how many the lines after it have: faults, or beside SHELF_DONE
 * warnings. Both are 0 where the inputs are too long and where memory was refused. There, and at SHELF_NO_ROOM,
 * the buffer is as it was. */
struct shelf_outcome {
    uint32_t status;
    size_t length;
    size_t told;
};

/* The octets that the signing key signs. */
struct shelf_outcome shelf_tbs(const uint8_t *order, size_t order_length, const uint8_t *files, size_t files_length,
                               uint8_t *buffer, size_t room);

/* What the order makes with this signature, in PEM. The signature is its octets, their Base64, or a PEM block SIGNATURE. One of RSA, ECDSA
 * or Ed25519 is verified. */
struct shelf_outcome shelf_seal(const uint8_t *order, size_t order_length, const uint8_t *files, size_t files_length,
                                const uint8_t *signature, size_t signature_length, uint8_t *buffer, size_t room);

/* The warnings alone, where shelf_tbs has an answer; else what is wrong. */
struct shelf_outcome shelf_lint(const uint8_t *order, size_t order_length, const uint8_t *files, size_t files_length,
                                uint8_t *buffer, size_t room);

/* What the files hold, for people. */
struct shelf_outcome shelf_explain(const uint8_t *files, size_t files_length, uint8_t *buffer, size_t room);

/* Whether the certification path of the files is valid: `valid N` with SHELF_DONE, or `invalid ..` with SHELF_REFUSED. */
struct shelf_outcome shelf_path(const uint8_t *question, size_t question_length, const uint8_t *files, size_t files_length,
                                uint8_t *buffer, size_t room);

#ifdef __cplusplus
}
#endif

#endif
