// The check of a table.
#ifndef ORACLE_CHECK_H
#define ORACLE_CHECK_H

#include "model.h"

namespace oracle {

// Checks the table of a call; writes nothing.
Answer check(const Call& call);

}  // namespace oracle

#endif
