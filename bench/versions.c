/* Compares each pair of versions by libsolv under conda's rules, the peer of `bench/versions`.

   versions TURNS < FILE reads a version from each line of standard input, compares each of them with
   each TURNS times, and prints `versions N turns T less L equal E`. Its status is 3 where libsolv is
   built without conda support. libsolv's header isn't needed: what is called is declared here. */
#include <stdio.h>
#include <stdlib.h>
#include <string.h>

typedef struct s_Pool Pool;
extern Pool *pool_create(void);
extern int pool_setdisttype(Pool *pool, int disttype);
extern int pool_evrcmp_str(const Pool *pool, const char *left, const char *right, int mode);
/* Only a libsolv with conda support has this one; it isn't called. */
extern int pool_conda_matchspec(Pool *pool, const char *spec) __attribute__((weak));

enum { DISTTYPE_CONDA = 4, EVRCMP_COMPARE = 0, NO_CONDA = 3, MOST = 100000 };

static char *versions[MOST];

int main(int words, char **word) {
    unsigned long turns = words > 1 ? strtoul(word[1], NULL, 10) : 1, less = 0, equal = 0;
    size_t count = 0;
    char line[4096];
    Pool *pool = pool_create();
    if (!pool_conda_matchspec || pool_setdisttype(pool, DISTTYPE_CONDA) < 0)
        return NO_CONDA;
    while (count < MOST && fgets(line, sizeof line, stdin)) {
        line[strcspn(line, "\n")] = 0;
        versions[count++] = strdup(line);
    }
    for (unsigned long turn = 0; turn < turns; turn++)
        for (size_t left = 0; left < count; left++)
            for (size_t right = 0; right < count; right++) {
                int order = pool_evrcmp_str(pool, versions[left], versions[right], EVRCMP_COMPARE);
                less += order < 0;
                equal += order == 0;
            }
    printf("versions %zu turns %lu less %lu equal %lu\n", count, turns, less, equal);
    return 0;
}
