// A file of joined records, one record at a time.
#include "twin.h"

// What is not a record leaves the place; a refusal's place counts from the file's start.
LIBRARY void step_at(const uint8_t *file, size_t n, size_t place, struct step *step)
{
    struct layout l;

    if (n <= place) {
        *step = (struct step){.number = END, .next = place};
        return;
    }
    struct end e = lay(file + place, n - place, nullptr, &l);
    if (e.number == 0)
        *step = (struct step){.place = e.place, .next = place + e.place, .count = l.count, .extended = l.extended};
    else if (e.number == 1)
        *step = (struct step){.number = 1, .next = place};
    else
        *step = (struct step){.number = e.number, .place = place + e.place, .next = place};
}
