#include "../../cord_session.h"
