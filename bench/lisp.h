// DR 34's program in its own SBCL process, which times itself: start-up and reading are not counted.
#pragma once
#include "questions.h"
#include <stdbool.h>

bool lisp_start(const char *directory, const question_set *sets, int count);
double lisp_pass(int set, int times);         // nanoseconds for all passes
void lisp_verdicts(int set, char *line, int room); // one digit a question
void lisp_stop(void);
