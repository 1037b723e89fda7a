/* What the calls answered and met, printed as tables. */
#ifndef REPORT_H
#define REPORT_H

void print_report(void);
int all_met(void); /* whether each function was accepted and gave each of its refusals, and each kind of step and call was met; says what was not */

#endif
