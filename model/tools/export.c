/* The model under the name of the exported run, to stand in for the product where the tools are tested. */
#include "../unit.h"
#include "iebus_run.h"

uint32_t iebus_run(const uint8_t *words, size_t words_len, uint8_t *answers, size_t answers_len)
{
    return model_bytes(words, words_len, answers, answers_len);
}
