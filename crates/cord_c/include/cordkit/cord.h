#include "../../cord.h"
