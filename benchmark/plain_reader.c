// The sheet reader in plain C: all lines are read by one function.
#include "plain.h"

#define READ_SHEET plain_read_sheet
#include "reader_call.h"

static uint64_t read_weight(Cursor *c, int64_t *weight) { return read_line(c, "W", 1, false, weight); }
