/* A test of every export, from C: answers, refusals, and what is written or left. A number may be given: the random calls
 * are others with each. */
#include "check.h"

#include <stdlib.h>

int main(int argc, char **argv)
{
    unsigned long long given = argc > 1 ? strtoull(argv[1], NULL, 10) : 1;
    uint64_t seed = given == 0 ? 1 : given * 0x9E3779B97F4A7C15u;
    test_sending();
    test_splitting(seed);
    test_stage();
    test_stage_runs(seed);
    test_feeding();
    test_table_calls();
    test_open_list();
    test_table_runs(seed);
    test_unreadable();
    test_lent_memory();
    test_files();
    test_header_find();
    return checks_done();
}
