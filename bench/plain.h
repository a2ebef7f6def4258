/* The same three operations in plain C, for comparison of cost. */
#ifndef PLAIN_H
#define PLAIN_H

#include "rofteluvi.h"

rofteluvi_answer plain_patch(uint8_t *section, size_t section_len, const uint8_t *records, size_t records_len,
                             const uint8_t *values, size_t values_len, uint64_t address, uint64_t gp);

rofteluvi_immediate plain_read_back(const uint8_t *section, size_t section_len, uint64_t address, uint64_t offset,
                                    uint32_t type);

rofteluvi_ran plain_run(const uint8_t *run, size_t run_len, uint64_t start, uint64_t registers[ROFTELUVI_REGISTERS]);

#endif
