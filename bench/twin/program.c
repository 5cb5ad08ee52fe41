// The twin of the listing program as one file.
#include "descriptions.c"
#include "records.c"
#include "list.c"
