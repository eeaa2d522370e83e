/* Surveys the sheet on standard input and prints V, E, T and V - E + T. */
#include <stdio.h>
#include "wz_survey.h"

static uint8_t sheet[600000];

static int32_t number(const uint8_t *b) {
    return (int32_t)((uint32_t)b[0] << 24 | (uint32_t)b[1] << 16 | (uint32_t)b[2] << 8 | b[3]);
}

int main(void) {
    uint8_t out[16];
    uint32_t refused = wz_survey_sheet(sheet, fread(sheet, 1, sizeof sheet, stdin), out, sizeof out);
    if (refused) return printf("REFUSED %u\n", refused), 0;
    printf("%d %d %d %d\n", number(out), number(out + 4), number(out + 8), number(out + 12));
    return 0;
}
