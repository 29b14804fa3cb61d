/* The library's calls behind one function, of the form that the model's has. */
#ifndef CALLS_H
#define CALLS_H

#include "model.h"

void library_run(const struct storage *storage, const struct request *request, void *words, const void *other,
                 struct answer *answer);

#endif
