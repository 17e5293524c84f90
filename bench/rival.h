/* The second program, as each compiler builds it: as it is, on its own struct; and behind the library's interface, its state read
 * out of the octets before a call and written back where that is accepted and may alter it, which a title call and a manual Goto may
 * not. */
#ifndef RIVAL_H
#define RIVAL_H

#include "calls.h"

uint32_t gcc_call(const call *c);
uint32_t gcc_lent_call(const call *c);
uint32_t clang_call(const call *c);
uint32_t clang_lent_call(const call *c);

#endif
