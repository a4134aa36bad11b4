// The switch that `bench/memory` puts into the programs that it builds.
#define _GNU_SOURCE
#include <errno.h>
#include <stdbool.h>
#include <stdint.h>
#include <stdio.h>
#include <stdlib.h>

// Whether the variable MUTANT is this number. The first time that it is asked for one, it notes it in the file NOTES.
bool is_mutant(uint32_t number) {
    static bool is_noted[65536];
    const char *mutant = getenv("MUTANT"), *name = getenv("NOTES");
    FILE *notes = name && !is_noted[number] ? fopen(name, "a") : NULL;
    is_noted[number] = true;
    if (notes) {
        fprintf(notes, "%u\n", number);
        fclose(notes);
    }
    return mutant && strtoul(mutant, NULL, 10) == number;
}

// Copies the program to the file KEPT, unless it is there, since `rt` keeps no program that it only tries.
__attribute__((constructor)) static void keep(void) {
    static char bytes[1 << 28];
    FILE *program = fopen(program_invocation_name, "r"), *copy = fopen(KEPT, "wx");
    if (program && copy)
        fwrite(bytes, 1, fread(bytes, 1, sizeof bytes, program), copy);
    if (copy)
        fclose(copy);
}
