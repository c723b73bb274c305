/* The structs of the header as docs/HOST.md fixes them: every compiler must lay them out so. */
#include <stddef.h>

#include "hundurzek.h"

#define AT(type, field, offset) _Static_assert(offsetof(type, field) == (offset), #type "." #field)
#define SIZE(type, size) _Static_assert(sizeof(type) == (size), #type)

AT(hundurzek_head, subtype, 0);
AT(hundurzek_head, epoch, 4);
AT(hundurzek_head, interval, 8);
AT(hundurzek_head, indicator, 12);
AT(hundurzek_head, iod, 16);
AT(hundurzek_head, a, 20);
AT(hundurzek_head, b, 24);
AT(hundurzek_head, c, 28);
SIZE(hundurzek_head, 32);

AT(hundurzek_reading, answer, 0);
AT(hundurzek_reading, place, 8);
AT(hundurzek_reading, missing, 16);
AT(hundurzek_reading, rows, 24);
AT(hundurzek_reading, raw_offset, 32);
AT(hundurzek_reading, raw_count, 40);
AT(hundurzek_reading, head, 48);
SIZE(hundurzek_reading, 80);

AT(hundurzek_walked, answer, 0);
AT(hundurzek_walked, place, 8);
AT(hundurzek_walked, missing, 16);
AT(hundurzek_walked, messages, 24);
AT(hundurzek_walked, rows, 32);
SIZE(hundurzek_walked, 40);

AT(hundurzek_done, answer, 0);
AT(hundurzek_done, place, 8);
AT(hundurzek_done, count, 16);
SIZE(hundurzek_done, 24);

AT(hundurzek_loaded, answer, 0);
AT(hundurzek_loaded, holding, 8);
SIZE(hundurzek_loaded, 208);
