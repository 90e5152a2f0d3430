/* Three calls of the port in plain C, with the signatures of sonerwal.h, and one that only hands the port over and back. */
#ifndef SONERWAL_BENCH_PLAIN_PORTS_H
#define SONERWAL_BENCH_PLAIN_PORTS_H

#include "sonerwal.h"

struct sonerwal_port_step plain_port_submit(struct sonerwal_request *list, size_t length, struct sonerwal_port port, struct sonerwal_open o,
                                            uint64_t now);
struct sonerwal_port_step plain_port_choose(struct sonerwal_request *list, size_t length, struct sonerwal_port port, uint64_t now);
struct sonerwal_port_step plain_port_enable(struct sonerwal_request *list, size_t length, struct sonerwal_port port, uint8_t phy, uint64_t now);
struct sonerwal_port_step plain_port_crossing(struct sonerwal_request *list, size_t length, struct sonerwal_port port, uint8_t phy, uint64_t now);

#endif
