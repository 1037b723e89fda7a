/* The guitar of the phrase: one wound A string, its neck and a finger in metres, newtons and kilograms, and the whole numbers that follow from them. */
#ifndef INSTRUMENT_H
#define INSTRUMENT_H

#include "wide.h"

enum { RATE = 44100, SEGMENTS = 90, POINTS = SEGMENTS - 1, FRETS = 22 };

/* The semitone places of the first 22 frets for N = 90. */
extern const uint32_t fret_places[FRETS];

/* The setup with the finger at a place, the string bent up by some cents, and the plain loss, in 1/s, of a hand that lies on the string (0: none). */
sv_setup instrument_setup(uint32_t finger_place, double cents, double hand);

/* Lays the neck: 0, or the refusal. */
uint32_t instrument_neck(sv_setup setup, int32_t heights[POINTS], uint16_t stiffness[POINTS]);

/* Metres and newtons in the library's units, and back. What is too great stays too great, for the library to refuse. */
int32_t units_of_metres(double metres);
int32_t units_of_newtons(double newtons);
double metres_of_units(double units);
double joules_of_units(wide energy);

#endif
