/* The calls of spatialjoin.h under names of their own, plain_load and so on, so that one program can link them beside the library. They
 * are declared by the header itself. */
#ifndef PLAIN_H
#define PLAIN_H

#define spatialjoin_load plain_load
#define spatialjoin_extract plain_extract
#define spatialjoin_exchange plain_exchange
#define spatialjoin_logical plain_logical
#define spatialjoin_print plain_print
#define spatialjoin_merge plain_merge
#define spatialjoin_project plain_project
#define spatialjoin_put plain_put
#define spatialjoin_serve plain_serve
#define spatialjoin_extract_all plain_extract_all
#define spatialjoin_explain plain_explain
#define spatialjoin_version plain_version

#include "spatialjoin.h"

#endif
