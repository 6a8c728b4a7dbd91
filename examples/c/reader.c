/* Asks a store: how many values of a stream lie in a range of times, and what is known of their sum, the least, the greatest and the mean.
 *
 *     cc reader.c $(pkg-config --cflags --libs summarystore) -o reader
 *     ./reader room.store hall 1764374400 1764460799
 *
 * Each line has the two ends between which the truth lies. It only looks, so several may do so at once, while nobody writes. */
#include <inttypes.h>
#include <stdio.h>
#include <string.h>
#include <summarystore.h>

/* The nearest number that C has. Whoever needs all of it takes its three parts. */
static double nearest(summarystore_number number)
{
    const double limb = 18446744073709551616.0;
    double over = number.high >= 0 ? (double)number.high * limb + (double)number.low
                                   : -((double)~number.high * limb + (double)~number.low + 1);
    return over / (double)number.under;
}

int main(int count, char **words)
{
    static const char *const kinds[] = {"count", "sum", "min", "max", "mean"};
    summarystore *store = NULL;
    summarystore_interval answer;
    uint64_t from, to;

    if (count != 5 || sscanf(words[3], "%19" SCNu64, &from) != 1 || sscanf(words[4], "%19" SCNu64, &to) != 1)
        return fprintf(stderr, "usage: reader STORE NAME FROM TO\n"), 2;
    int status = summarystore_open(words[1], strlen(words[1]), SUMMARYSTORE_EXISTING | SUMMARYSTORE_LOOK, &store);
    for (int kind = SUMMARYSTORE_COUNT; status == SUMMARYSTORE_DONE && kind <= SUMMARYSTORE_MEAN; kind++) {
        status = summarystore_query(store, words[2], strlen(words[2]), kind, from, to, &answer);
        if (status != SUMMARYSTORE_DONE)
            break;
        if (answer.none)
            printf("%s: no value\n", kinds[kind]);
        else
            printf("%s: %.10g to %.10g%s\n", kinds[kind], nearest(answer.lo), nearest(answer.hi), answer.maybe_none ? ", or no value" : "");
    }
    if (status != SUMMARYSTORE_DONE)
        fprintf(stderr, "%s%s (status %d)\n", summarystore_message(store), summarystore_refusal(status), status);
    summarystore_close(store);
    return status;
}
