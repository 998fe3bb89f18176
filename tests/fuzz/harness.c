/* Hands the fuzzer's inputs to the comparison. What guides the fuzzer is tests/bench/judge.c, compiled by its compiler
 * beside this. Without the fuzzer the program compares the one input on standard input. */
#include <stddef.h>
#include <unistd.h>

void compare(const unsigned char *input, size_t len);

__AFL_FUZZ_INIT();

int main(void)
{
    __AFL_INIT();
    const unsigned char *input = __AFL_FUZZ_TESTCASE_BUF;
    while (__AFL_LOOP(10000))
        compare(input, (size_t)__AFL_FUZZ_TESTCASE_LEN);
    return 0;
}
