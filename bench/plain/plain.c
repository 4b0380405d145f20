/*
 * The calls of spatialjoin.h in plain C, as one would write them for speed under the same contract: no heap, no state, no intrinsics. A
 * yardstick for what the proved library costs, and nobody's product; ../README.md says how it was checked.
 *
 * A call makes one pass over its frame or plan, which checks it and notes only what this call needs (exprs.h, conjuncts.h): load and merge
 * where each node starts and ends; extract, that the lent table has each node, where columns stand and which conjunct is taken; extract_all
 * which conjuncts match; explain a verdict for each. What is written is then copied in spans, and the columns in them are patched
 * (remainder.h).
 *
 * All parts are compiled as one file, so that only the calls are seen outside.
 */
#include "exchange.c"
#include "extract.c"
#include "load.c"
#include "queues.c"
#include "read_only.c"

int64_t plain_version(void)
{
    return SPATIALJOIN_VERSION_NUMBER;
}
