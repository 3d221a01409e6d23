#include "../user_space.h"
