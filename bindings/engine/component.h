/* The component of guest.c: the numbers of its exports and imports, and its types (examples/README.md, "Types"). */
#ifndef COMPONENT_H
#define COMPONENT_H

enum { WORDS, GREET, TOTAL, MAKE, UNMAKE, SAME, LENGTH, SUM, BROKEN, CRASH };
enum { COUNTER_NEW, COUNTER_REP, COUNTER_DROP, CLOCK, LOG };

static const char component[] =
    "{\"memory\": 131072, \"fuel\": 1000000000, \"resources\": [{\"kind\": \"guest\", \"id\": 1}],"
    " \"types\": [{\"list\": \"u32\"}, {\"record\": [[\"name\", \"string\"], [\"count\", \"u32\"]]}, {\"list\": 1},"
    "  {\"record\": [[\"sum\", \"u64\"], [\"longest\", \"string\"]]}, {\"list\": \"u8\"}],"
    " \"funcs\": [{\"params\": [\"string\"], \"results\": [0], \"post\": true},"
    "  {\"params\": [\"string\"], \"results\": [\"string\"], \"post\": true},"
    "  {\"params\": [2], \"results\": [3], \"post\": true},"
    "  {\"params\": [\"u32\"], \"results\": [\"u32\"]},"
    "  {\"params\": [\"u32\"], \"results\": [\"u32\"]},"
    "  {\"params\": [\"u32\", \"s8\"], \"results\": [\"bool\"]},"
    "  {\"params\": [\"string\"], \"results\": [\"u32\"], \"post\": true},"
    "  {\"params\": [4], \"results\": [\"u32\"], \"post\": true},"
    "  {\"params\": [], \"results\": [0]},"
    "  {\"params\": [], \"results\": [\"u32\"]}],"
    " \"imports\": [{\"builtin\": \"new\", \"resource\": 0}, {\"builtin\": \"rep\", \"resource\": 0},"
    "  {\"builtin\": \"drop\", \"resource\": 0}, {\"params\": [], \"results\": [\"u32\"], \"answers\": []},"
    "  {\"params\": [\"string\"], \"results\": [], \"answers\": []}]}";

#endif
