/* Documents 01 and 02 for all but steps and block, written plainly: what the library's functions of the same names must answer and write. */
#ifndef RULES_H
#define RULES_H

#include "../include/string_voice.h"

enum { DISPLACEMENT = 1048576, CONTACT = 67108864, FORCE = 1073741824 }; /* the greatest of each, and below 0 the least */

typeof(sv_check_setup) rule_check_setup;
typeof(sv_bend) rule_bend;
typeof(sv_bend_booked) rule_bend_booked;
typeof(sv_slide) rule_slide;
typeof(sv_lay_neck) rule_lay_neck;
typeof(sv_fresh_start) rule_fresh_start;
typeof(sv_newest) rule_newest;
typeof(sv_read_place) rule_read_place;

#endif
