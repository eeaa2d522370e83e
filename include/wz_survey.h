#ifndef WZ_SURVEY_H
#define WZ_SURVEY_H

#include <stddef.h>
#include <stdint.h>

/*
 * Surveys the bytes of a sheet (grid or float places).
 *
 * Answers 0 and writes V, E, T and V - E + T into out[0..16], each a signed
 * 32-bit big-endian number; bytes of out past 16 stay as they were.
 * Otherwise answers the number of the first refusal and writes nothing:
 * 9 if out_len is under 16, else the first of 10 to 19 that applies.
 *
 * A null pointer is allowed where its length is 0. The two buffers must not
 * overlap. The call takes about 1.4 MB of stack on more than 100 triangles.
 */
uint32_t wz_survey_sheet(const uint8_t *sheet, size_t sheet_len,
                         uint8_t *out, size_t out_len);

#endif
