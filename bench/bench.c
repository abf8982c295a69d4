// The benchmark: prints its tables, and judges in words alone. `run` builds and calls it.
#include "tables.h"

#include <stdio.h>
#include <stdlib.h>

const char *met(int is_met)
{
    return is_met ? "met" : "not met";
}

// Arguments: least seconds of a round, and what the archive was found to be.
int main(int count, char **arguments)
{
    Footprint found;
    double shortest;
    if (count != 6) {
        fprintf(stderr, "usage: %s SECONDS ARCHIVE LINKED FRAME FUNCTION\n", arguments[0]);
        return 2;
    }
    shortest = atof(arguments[1]);
    found.archive = strtoul(arguments[2], NULL, 10);
    found.linked = strtoul(arguments[3], NULL, 10);
    found.frame = strtoul(arguments[4], NULL, 10);
    found.function = arguments[5];
    printf("A ratio is ours by theirs: 1.00 is as fast, less is faster. Best of several rounds in turn.\n\n");
    print_feeding(shortest);
    print_filling(shortest);
    print_footprint(&found);
    return 0;
}
