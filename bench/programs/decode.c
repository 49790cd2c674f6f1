// Reads a batch of Avro events so often with the C library of Avro, and prints the seconds.   decode TIMES FILE SCHEMA
#include <avro.h>
#include <stdio.h>
#include <stdlib.h>
#include <time.h>

static char bytes[1 << 22], text[1 << 16];

static long read_file(const char *name, char *into, long room) {
    FILE *file = fopen(name, "rb");
    long size = file ? (long)fread(into, 1, room, file) : -1;
    if (file)
        fclose(file);
    return size;
}

int main(int count, char **words) {
    long times = count > 3 ? atol(words[1]) : 0, size = read_file(words[2], bytes, sizeof bytes);
    avro_schema_t schema;
    avro_value_t batch;
    struct timespec from, to;
    if (avro_schema_from_json_length(text, read_file(words[3], text, sizeof text), &schema))
        return 1;
    avro_value_iface_t *kind = avro_generic_class_from_schema(schema);
    avro_generic_value_new(kind, &batch);
    clock_gettime(CLOCK_MONOTONIC, &from);
    for (long i = 0; i < times; i++) {
        avro_reader_t reader = avro_reader_memory(bytes, size);
        avro_value_reset(&batch);
        if (avro_value_read(reader, &batch))
            return 2;
        avro_reader_free(reader);
    }
    clock_gettime(CLOCK_MONOTONIC, &to);
    printf("%.6f\n", (to.tv_sec - from.tv_sec) + (to.tv_nsec - from.tv_nsec) / 1e9);
    return 0;
}
