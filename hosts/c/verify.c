/* Verifies a stranger's program file, and prints how many operands and slots each of its chunks needs: verify FILE */
#include "grain.h"

#include <stdio.h>

enum { FILE_SIZE = 1 << 20, CHUNKS = 1000 };

int main(int argc, char **argv) {
    static uint8_t bytes[FILE_SIZE];
    static uint16_t depths[CHUNKS];
    static uint32_t slots[CHUNKS];
    char text[GRAIN_TEXT_SIZE] = "";
    grain_file *file;
    grain_read_error error;
    grain_report report;
    FILE *stream = argc == 2 ? fopen(argv[1], "rb") : NULL;
    if (stream == NULL)
        return 2;
    size_t length = fread(bytes, 1, sizeof bytes, stream);
    fclose(stream);

    grain_status status = grain_file_read(&file, bytes, length, NULL, &error);
    if (status == GRAIN_ACCEPTED)
        status = grain_file_verify(NULL, file, GRAIN_CAP_FUNCTION, length, depths, CHUNKS, slots, &report);

    if (status == GRAIN_MALFORMED)
        grain_read_error_text(&error, text, sizeof text);
    else if (status == GRAIN_REFUSED)
        grain_refusal_text(&report.refusal, text, sizeof text);
    printf("%s%s%s\n", grain_status_text(status), text[0] == 0 ? "" : ": ", text);
    for (size_t chunk = 0; status == GRAIN_ACCEPTED && chunk < grain_file_contents(file)->program.chunks_len; chunk++)
        printf("chunk %zu needs %u operands and %lu slots\n", chunk, depths[chunk], (unsigned long)slots[chunk]);
    grain_file_free(file);
    return status == GRAIN_ACCEPTED ? 0 : 1;
}
