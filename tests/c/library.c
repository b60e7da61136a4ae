#include "library.h"
#include <boards.h>

library boards = {
    {
        [HCH] = {boards_encipher, boards_decipher, boards_seal, boards_open},
        [FORWARD] = {boards_forward_encipher, boards_forward_decipher, boards_forward_seal, boards_forward_open},
    },
    boards_find,
    boards_seal_run,
    boards_open_run,
};
