/* The watching call on whole files, for a comparison with the program, which reads records in parts: watch CIRCUIT RECORDS OUT WINDOW prints the line that the
 * program prints, and writes the pair file to OUT where a pair is found. */
#include "../yolqushek.h"
#include <inttypes.h>
#include <stdio.h>
#include <stdlib.h>

/* The bytes of a file. */
static uint8_t *bytes_of(const char *name, size_t *length)
{
    FILE *file = fopen(name, "rb");
    uint8_t *bytes = NULL;
    if (file == NULL || fseek(file, 0, SEEK_END) != 0 || (bytes = malloc((*length = ftell(file)) + 1)) == NULL)
        exit(2);
    rewind(file);
    if (fread(bytes, 1, *length, file) != *length || fclose(file) != 0)
        exit(2);
    return bytes;
}

/* Writes the pair file. */
static void hand_over(const char *name, const uint8_t *pair, size_t length)
{
    FILE *file = fopen(name, "wb");
    if (file == NULL || fwrite(pair, 1, length, file) != length || fclose(file) != 0)
        exit(2);
}

int main(int count, char **words)
{
    uint8_t pair[7 + 8 * 256];
    uint64_t sizes[5], answer[2], returned;
    size_t circuit_length, records_length;
    if (count != 5)
        return 2;
    uint8_t *circuit = bytes_of(words[1], &circuit_length), *records = bytes_of(words[2], &records_length);
    returned = yolqushek_watch(circuit, circuit_length, records, records_length, strtoul(words[4], NULL, 10), pair, sizeof pair, answer);
    if (yolqushek_number(returned) != 0) {
        printf("refused %" PRIu32 " %" PRIu32 "\n", yolqushek_number(returned), yolqushek_place(returned));
    } else if (yolqushek_signal(returned) == 0) {
        puts("none");
    } else {
        yolqushek_read(circuit, circuit_length, sizes);
        hand_over(words[3], pair, 7 + 8 * sizes[1]);
        printf("pair %" PRIu32 " %" PRIu64 " %" PRIu64 "\n", yolqushek_signal(returned), answer[0], answer[1]);
    }
    return 0;
}
