/* The proved services on sheets, for a host in C99, C++17 or C++20 on x86-64.
 * Link libbridgetext.a, which tools/library makes and tools/install installs.
 *
 * A sheet is any bytes of any length; nothing of it has to be checked first.
 * Each service always returns, and answers the same for the same bytes.
 *
 * Threads and re-entrancy: a service takes no heap, has no global variable,
 * keeps no state and calls nothing back. Threads may ask at once, and so may a
 * signal handler, even within a call that it interrupts, if no two calls share a
 * buffer and the handler's stack has room. How much stack a service takes is in
 * docs/FIGURES.md.
 *
 * A pointer is that of as many bytes as the length behind it says, and not
 * null, not even for none. A buffer shares no byte with the sheet, and nothing
 * else writes to either during the call.
 *
 * An answer of 0 or more is that of an accepted sheet. A negative answer is a
 * refusal's number negated: -answer is a value of bridgetext_refusal.
 */
#ifndef BRIDGETEXT_H
#define BRIDGETEXT_H

#include <stddef.h>
#include <stdint.h>

#define BRIDGETEXT_VERSION "0.1.0"
#define BRIDGETEXT_VERSION_MAJOR 0
#define BRIDGETEXT_VERSION_MINOR 1
#define BRIDGETEXT_VERSION_PATCH 0

/* The release of the crate cxx-build whose text and struct order these are. */
#define BRIDGETEXT_CXX_BUILD_VERSION "1.0.205"

#ifdef __cplusplus
extern "C" {
#endif

/* Why a service refuses. Excess length comes first. Then 1 to 8: the first
 * field at fault in sheet order, the lower number at one field. Then 9 to 12,
 * lowest number, then 13. Nothing else is refused. */
enum bridgetext_refusal {
  /* over 32,768 bytes, or ends before a field is whole */
  BRIDGETEXT_CUT_SHEET = 1,
  /* neither 1 nor 2 */
  BRIDGETEXT_EDITION = 2,
  /* breaks the name rule, as keywords (of C++17 in edition 1, of C++20 in
   * edition 2) and reserved identifiers (`a__b`, `_Tool`) do */
  BRIDGETEXT_BAD_NAME = 3,
  /* no such entry */
  BRIDGETEXT_LOOSE_INDEX = 4,
  /* item 5 to 7, type 12 or 15, enum atom outside 2 to 11 */
  BRIDGETEXT_BAD_KIND = 5,
  /* a type at depth 9 */
  BRIDGETEXT_TOO_DEEP = 6,
  /* breaks the line rule */
  BRIDGETEXT_BAD_COMMENT = 7,
  /* not zero bits up to the byte's end, or a byte more */
  BRIDGETEXT_TAIL = 8,
  /* an item index names a function */
  BRIDGETEXT_WRONG_PART = 9,
  /* an item's first namespace is `std` or `rust`; two types with the same full
   * name; two functions with the same symbol; two equal argument names in a
   * function */
  BRIDGETEXT_TAKEN = 10,
  /* kind 10 as argument; `self` in a method; `error` in a throwing function, if
   * its type is indirect and not RustString */
  BRIDGETEXT_UNFIT_ARGUMENT = 11,
  /* a struct holds itself by named fields, over any number of structs */
  BRIDGETEXT_RING = 12,
  /* the answer is longer than the buffer */
  BRIDGETEXT_OVERRUN = 13
};

/* Checks a sheet: 0 if it is accepted, else the refusal's number negated, which
 * is never that of an overrun. */
int64_t bridgetext_check(const uint8_t *sheet, size_t sheet_len);

/* Writes the sheet's text to the start of the buffer, with no zero byte behind
 * it, and answers its length. The bytes behind the text stay as they were. A
 * refusal, an overrun included, leaves the whole buffer as it was; it is the
 * refusal of a check, if a check refuses.
 *
 * No length is known beforehand, and a sheet of 32,768 bytes can stand for more
 * than 73 million bytes of text. A host that takes any text asks again with a
 * longer buffer after an overrun. */
int64_t bridgetext_write(const uint8_t *sheet, size_t sheet_len, uint8_t *buf, size_t buf_len);

/* Writes the item numbers of the sheet's structs to the start of the buffer,
 * one byte each, counted from 0 over all items: every struct once, each behind
 * those that it holds by named fields, in the order of cxx-build 1.0.205's
 * `sort`. Answers how many they are, at most 255. For the rest of the buffer
 * and for refusals the same holds as for the text. */
int64_t bridgetext_struct_order(const uint8_t *sheet, size_t sheet_len, uint8_t *buf,
                                size_t buf_len);

#ifdef __cplusplus
}
#endif

#endif
