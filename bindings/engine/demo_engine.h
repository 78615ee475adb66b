/* The engine that the programs here are linked with. */
#ifndef DEMO_ENGINE_H
#define DEMO_ENGINE_H

#include "../canon.h"

#ifdef __cplusplus
extern "C" {
#endif

extern const canon_engine *const demo_engine;
/* The data of an engine for one store, or NULL. */
void *demo_engine_new(void);
void demo_engine_free(void *);

#ifdef __cplusplus
}
#endif

#endif
