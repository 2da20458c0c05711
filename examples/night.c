/*
 * The sample night from C: text to BINARY2, BINARY2 to base64, both forms compared, one row by an index, and a night of which the end is still to
 * come.
 *
 *     cc -I include examples/night.c target/library/libsailmortar.a -o night && ./night
 */
#include <inttypes.h>
#include <stdio.h>
#include <string.h>

#include "sailmortar.h"

static const char fields[] =
    "<FIELD name='sky' datatype='short'><VALUES null='-99'/></FIELD>"
    "<FIELD name='note' datatype='char' arraysize='4'/>"
    "<FIELD name='clear' datatype='boolean'/>";

static const char night[] =
    "<TR><TD>7</TD><TD>a&amp;b</TD><TD>T</TD></TR>\n"
    "<TR><TD/><TD>dusk</TD><TD/></TR>\n";

static void convert(uint32_t from, uint32_t to, const void *rows, size_t length, uint8_t *out, size_t room, uint64_t answer[6]) {
    sailmortar_convert_piece((const uint8_t *)fields, strlen(fields), from, to, rows, length, out, room, answer);
    printf("number %" PRIu64 ", row %" PRIu64 ", column %" PRIu64 ", rows %" PRIu64 ", bytes %" PRIu64 "\n", answer[SAILMORTAR_NUMBER],
           answer[SAILMORTAR_ROW], answer[SAILMORTAR_COLUMN], answer[SAILMORTAR_ROWS], answer[SAILMORTAR_BYTES]);
}

int main(void) {
    uint8_t binary2[64], letters[64], text[256];
    uint32_t starts[1];
    uint64_t answer[6], encoded[5], fetched[5], compared[8];
    size_t end;

    sailmortar_declare((const uint8_t *)fields, strlen(fields), answer);
    printf("columns %" PRIu64 "\n", answer[SAILMORTAR_COLUMNS]);

    convert(SAILMORTAR_TABLEDATA, SAILMORTAR_BINARY2, night, strlen(night), binary2, sizeof binary2, answer);
    sailmortar_base64_encode(binary2, answer[SAILMORTAR_BYTES], letters, sizeof letters, encoded);
    printf("%.*s\n", (int)encoded[SAILMORTAR_BYTES], (const char *)letters);

    convert(SAILMORTAR_BINARY2, SAILMORTAR_TABLEDATA, binary2, answer[SAILMORTAR_BYTES], text, sizeof text, answer);
    printf("%.*s", (int)answer[SAILMORTAR_BYTES], (const char *)text);

    /* Both forms show the same, whatever the spelling. */
    sailmortar_compare((const uint8_t *)fields, strlen(fields), SAILMORTAR_TABLEDATA, (const uint8_t *)night, strlen(night), SAILMORTAR_BINARY2,
                       binary2, 16, NULL, 0, compared);
    printf("cells that differ %" PRIu64 ", rows beyond %" PRIu64 " and %" PRIu64 "\n", compared[SAILMORTAR_DIFFERING],
           compared[SAILMORTAR_FIRST_BEYOND], compared[SAILMORTAR_SECOND_BEYOND]);

    /* One row, found by an index; of a long night this takes no longer. */
    sailmortar_index((const uint8_t *)fields, strlen(fields), SAILMORTAR_BINARY2, binary2, 16, starts, 1, answer);
    sailmortar_fetch((const uint8_t *)fields, strlen(fields), SAILMORTAR_BINARY2, binary2, 16, starts, 1, answer[SAILMORTAR_ROWS], 1, text,
                     sizeof text, fetched);
    printf("row 1 of %" PRIu64 ": %.*s", answer[SAILMORTAR_ROWS], (int)fetched[SAILMORTAR_BYTES], (const char *)text);

    /* The last byte is missing: the first row stands, and the answer says where it went wrong. */
    convert(SAILMORTAR_BINARY2, SAILMORTAR_TABLEDATA, binary2, 15, text, sizeof text, answer);
    printf("%.*s", (int)answer[SAILMORTAR_BYTES], (const char *)text);

    /* Once it is here, the night goes on where the rows done end. */
    end = answer[SAILMORTAR_END];
    convert(SAILMORTAR_BINARY2, SAILMORTAR_TABLEDATA, binary2 + end, 16 - end, text, sizeof text, answer);
    printf("%.*s", (int)answer[SAILMORTAR_BYTES], (const char *)text);
    return answer[SAILMORTAR_NUMBER] == SAILMORTAR_ACCEPTED ? 0 : 1;
}
