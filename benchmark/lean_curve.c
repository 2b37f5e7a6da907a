// The tuned curve call with one thing less to do: bounds are not raised. The proved call could leave them too, if what its pass asks for
// said that no bound is negative.
#define LEAN
#include "tuned_curve.c"
