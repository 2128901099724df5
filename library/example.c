/* Two purchases that contradict each other, in memory: prints what `rp analyse t.csv` prints. */
#include <stdio.h>
#include "rp.h"

int main(void) {
    static const char words[] = "analyse\0t.csv", names[] = "t.csv";
    static const char table[] = "p_bread,q_bread,p_wine,q_wine\n1,1,2,2\n2,2,1,1\n";
    static uint8_t output[65536], told[4096];
    uint64_t size = sizeof table - 1, written = 0, explained = 0;
    int32_t status = rp_answer(
        (const uint8_t *)words, sizeof words, (const uint8_t *)names, sizeof names, &size, 1,
        (const uint8_t *)table, size, output, sizeof output, told, sizeof told, &written, &explained);
    if (status > RP_REJECTED || written > sizeof output) {
        fwrite(told, 1, explained < sizeof told ? explained : sizeof told, stderr);
        return status ? status : 70;
    }
    fwrite(output, 1, written, stdout);
    return status;
}
