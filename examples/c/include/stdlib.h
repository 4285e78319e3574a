/* Of C's header of the same name there is strtol. It is a service of sysclib. */
#ifndef STDLIB_H
#define STDLIB_H

#include <sysclib.h>

#endif
