/* A job that writes one byte past its output. tools/check-c links it into tests/calls.c in place of the real one, to see that the guards
   around a slice notice it. */
#include "reedgosling.h"

size_t reedgosling_job(const uint8_t *input, size_t input_length, uint8_t *output, size_t output_length)
{
    (void)input;
    (void)input_length;
    output[output_length] = 0;
    return 0;
}
