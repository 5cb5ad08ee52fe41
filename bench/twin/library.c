// The twin as one file: the Rattle compiler sees all crates at once, so clang sees all of the twin at once.
#include "descriptions.c"
#include "records.c"
#include "walks.c"
#include "templates.c"
#include "readings.c"
#include "calls.c"
