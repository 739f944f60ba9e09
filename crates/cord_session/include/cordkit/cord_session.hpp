#include "../../cord_session.hpp"
