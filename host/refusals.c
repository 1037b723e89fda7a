/* The numbers of document 01, 'What each operation turns down', and of document 02 in words. */
#include <stdio.h>
#include <stdlib.h>
#include "refusals.h"

static const char *const meanings[] = {
    "no refusal",
    "the number of segments is not from 2 to 128",
    "tension is 0, or one of tension, stiffness and the two losses is above 4096",
    "tension + 4 * stiffness + 2 * viscous loss is above 4096",
    "a place is not from 1 to N - 1",
    "the finger's mass is not from 1 to 1,048,576",
    "a neck, string or contact buffer is not N - 1 long",
    "a height of board or neck is not from -1,048,576 to 0",
    "there are more than 24 frets, or a fret's place is out of range or not above the one before it",
    "the frets' tip is above 0, or below the board at a fret",
    "the finger's first height is not from 0 to 1,048,576, or its older height is out of range",
    "a displacement, finger height or contact variable passed in is out of range",
    "a force is out of range",
    "the step would move string or finger out of range: pluck or press with less force",
    "the step would drive a contact variable out of range: pluck or press with less force",
    "the forces are not two for each step, or there are fewer samples than forces",
    "the book counts 4,294,967,295 steps, its largest number: begin another one",
    "a column of the book is not from -2^120 to 2^120",
};

void refused(const char *call, uint32_t number, double seconds)
{
    const char *meaning = number < sizeof meanings / sizeof meanings[0] ? meanings[number] : "a number that this host does not know";
    fprintf(stderr, "%s refused with %u at %.4f s: %s\n", call, (unsigned)number, seconds, meaning);
    exit(1);
}
