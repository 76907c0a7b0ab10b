#include "rasuvelk.h"
#include <stdio.h>

static uint8_t image[64 * 512]; /* the file, and room to grow into */
static uint32_t memory[6 * 64];

int main(void)
{
    rasuvelk_lent lent;
    rasuvelk_answer answer;
    size_t used = fread(image, 1, sizeof image, stdin);
    uint32_t refusal = rasuvelk_lend(&lent, image, sizeof image, memory, sizeof memory);
    if (!refusal) refusal = rasuvelk_lent_open(&lent, used, RASUVELK_STRICT);
    if (!refusal) refusal = rasuvelk_lent_write(&lent, 0, 4096, (const uint8_t *)"one more", 8, &answer);
    if (refusal) return (int)refusal;
    return fwrite(image, 1, lent.state.used, stdout) == lent.state.used ? 0 : 255;
}
