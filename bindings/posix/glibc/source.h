/* source.h: what glibc's build gives its tests, and the system's headers don't. */

#ifndef PARKLOT_SOURCE_H
#define PARKLOT_SOURCE_H

#include <limits.h>
#include <stddef.h>

#define TIMEOUTFACTOR 4

#define libc_hidden_proto(name)
#define libc_hidden_def(name)
#define attribute_hidden
#define __nonnull(parameters)

#endif
