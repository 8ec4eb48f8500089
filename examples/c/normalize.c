/* Prints the lowered grammar of a tree in JSON, or its fault:  normalize [--whole] TREE.json [ARGUMENT..]
 * With --whole it is the whole of it, as JSON; else its lines. */
#include <stdio.h>
#include <stdlib.h>
#include <string.h>
#include "lnorm.h"

static char tree[1 << 20], words[4096], faults[4096], none[1];

int main(int count, char **call) {
    int is_whole = count > 1 && !strcmp(call[1], "--whole");
    struct lnorm_answer (*lower)(const char *, size_t, const char *, size_t, char *, size_t, char *, size_t) = is_whole ? lnorm_whole : lnorm_run;
    count -= is_whole;
    call += is_whole;
    FILE *file = count > 1 ? fopen(call[1], "rb") : NULL;
    if (!file) return 4;
    size_t tree_size = fread(tree, 1, sizeof tree, file), words_size = 0;
    if (!feof(file)) return 4;
    for (int i = 2; i < count; i++) {
        size_t size = strlen(call[i]) + 1;
        if (size > sizeof words - words_size) return 4;
        memcpy(words + words_size, call[i], size);
        words_size += size;
    }
    /* The first call has no room for the output, and answers how much it needs. */
    struct lnorm_answer asked = lower(words, words_size, tree, tree_size, none, 0, faults, sizeof faults);
    if (asked.status != LNORM_DONE) {
        fwrite(faults, 1, asked.faults_size < sizeof faults ? asked.faults_size : sizeof faults, stderr);
        return asked.status;
    }
    char *output = malloc(asked.output_size + 1);
    if (!output) return LNORM_NO_MEMORY;
    struct lnorm_answer told = lower(words, words_size, tree, tree_size, output, asked.output_size, faults, sizeof faults);
    fwrite(output, 1, told.output_size, stdout);
    free(output);
    return told.status;
}
