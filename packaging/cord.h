#include "cordkit/cord.h" /* the header, which stands in a folder now */
