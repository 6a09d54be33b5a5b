/* The encounter module's C interface: the report on an encounter sheet.
 *
 * Link with the archive that `rt lib` writes in crates/exports_report (out/libexports_report.a).
 * Nothing else is needed. A call needs some 35 KB of stack (docs/PERFORMANCE.md, 'Stack').
 */
#ifndef ENCOUNTER_H
#define ENCOUNTER_H

#include <stddef.h>
#include <stdint.h>

#ifdef __cplusplus
extern "C" {
#endif

/* Room for every report: the lines on 32 contacts and the answer have at most 4,232 bytes. */
#define ENCOUNTER_REPORT_ROOM 4232

/* Writes what the program `encounter` prints for the sheet to the start of `out`, and returns how
 * many bytes that are, at least one. If `out` has no room for all of it, writes nothing and returns
 * 0. Any bytes may be handed in: what is no sheet is answered with its refusal. The sheet's words
 * and the lines are described in docs/SHEET.md.
 *
 * The sheet is only read: the function has it by a type through which nothing can be written.
 * `sheet` and `out` must not overlap. A pointer may be null where its length is 0. Nothing is kept
 * between calls.
 *
 * The text is not ended by a zero byte.
 */
size_t encounter_report(const uint8_t *sheet, size_t sheet_len, uint8_t *out, size_t out_len);

#ifdef __cplusplus
}
#endif

#endif
