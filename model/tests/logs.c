/* Ticket 1's reader on the logs that were worked out by hand. */
#include "../known_logs.h"
#include "bench.h"

void logs(void)
{
    for (size_t i = 0; i < KNOWN_LOGS; i++)
        report(known_logs[i].name, known_log_holds(&known_logs[i], model_read_log), "other records");
    for (size_t i = 0; i < REFUSED_LOGS; i++)
        report(refused_logs[i].name, refused_log_holds(&refused_logs[i], model_read_log), "not so");
}
