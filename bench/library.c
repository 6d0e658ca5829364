/* Times the library's predict on 65,536 problems from standard input, one run, and prints the seconds and
 * how many were refused. Status: 0 measured, 2 there are too few problems. */
#include "timing.h"

enum { PROBLEMS = 65536 };

static uint8_t problems[PROBLEMS * PROBLEM_SIZE];

int main(void)
{
    size_t size = read_full(problems, sizeof problems), refused = 0;
    double sum = 0;
    if (size != sizeof problems) {
        dprintf(2, "bench: 65536 problems are wanted, and there are %lu\n", (unsigned long)(size / PROBLEM_SIZE));
        return 2;
    }
    double began = seconds();
    for (size_t i = 0; i < PROBLEMS; i++)
        refused += tailfiddle_predict(problems + i * PROBLEM_SIZE, PROBLEM_SIZE, &sum) != 0;
    printf("%.6f %lu\n", seconds() - began, (unsigned long)refused);
    return 0;
}
