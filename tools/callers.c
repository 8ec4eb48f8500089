/* The programs lnorm and lexplain over the static library, as tools/callers builds them: arguments, an input on standard input, both streams
   and the exit status. CALL is lnorm_run or lnorm_whole, whose input is a tree; or TREES is lnorm_explain or lnorm_ambiguous: then the first
   argument is the file of the tree, and the input is lines of derivation trees. It allocates nothing itself, so that in tools/refusals only
   allocations of the library fail. */
#include <fcntl.h>
#include <string.h>
#include <unistd.h>
#include "lnorm.h"

static char words[1 << 16], input[1 << 24], output[1 << 24], faults[1 << 16];

/* All bytes of a file, of which there are fewer than fit; their number, or -1. */
static ssize_t all_of(int file, char *bytes, size_t room) {
    size_t size = 0;
    for (ssize_t got; (got = read(file, bytes + size, room - size)) != 0; size += (size_t)got)
        if (got < 0) return -1;
    return size < room ? (ssize_t)size : -1;
}

int main(int count, char **call) {
    size_t words_size = 0;
    int first = 1;
#ifdef TREES
    static char grammar[1 << 24];
    if (count < 2) return 4;
    ssize_t grammar_size = all_of(open(call[first++], O_RDONLY), grammar, sizeof grammar);
    if (grammar_size < 0) return 4;
#define CALL(words, size, ...) TREES(words, size, grammar, (size_t)grammar_size, __VA_ARGS__)
#endif
    for (int i = first; i < count; i++) {
        size_t size = strlen(call[i]) + 1;
        if (size > sizeof words - words_size) return 4;
        memcpy(words + words_size, call[i], size);
        words_size += size;
    }
    ssize_t input_size = all_of(0, input, sizeof input);
    if (input_size < 0) return 4;
    struct lnorm_answer answer = CALL(words, words_size, input, (size_t)input_size, output, sizeof output, faults, sizeof faults);
    if (answer.output_size > sizeof output || answer.faults_size > sizeof faults) return 4;
    if (write(1, output, answer.output_size) != (ssize_t)answer.output_size) return 4;
    if (write(2, faults, answer.faults_size) != (ssize_t)answer.faults_size) return 4;
    return answer.status;
}
