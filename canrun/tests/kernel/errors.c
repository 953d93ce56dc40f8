/* Error message frames that a program writes, and the error mask. */
#include "probe.h"

static const can_err_mask_t every = CAN_ERR_MASK;
#define BUSERROR (CAN_ERR_FLAG | CAN_ERR_BUSERROR)
/* A case that prints the frames that a socket with this error mask receives after a program has written an error
   message frame. */
#define MASKED(name, interface, mask)                                                                         \
    CASE(name, a = raw(interface), b = raw("can0"), DO(set(a, SOL_CAN_RAW, CAN_RAW_ERR_FILTER, (int)(mask))), \
         put(b, FRAME(BUSERROR, 1, 2, 3, 4, 5, 6, 7, 8)), PUT(b, LAST), take_to(a, LAST))
MASKED(mask_0, "can0", 0)
MASKED(mask_all, "can0", CAN_ERR_MASK)
MASKED(mask_this, "can0", CAN_ERR_BUSERROR)
MASKED(mask_other, "can0", CAN_ERR_CRTL)
MASKED(mask_all_other_end, "can1", CAN_ERR_MASK)
MASKED(mask_0_other_end, "can1", 0)
MASKED(mask_all_of_all, NULL, CAN_ERR_MASK)
CASE(own, a = raw("can0"), setsockopt(a, SOL_CAN_RAW, CAN_RAW_ERR_FILTER, &every, sizeof every),
     set(a, SOL_CAN_RAW, CAN_RAW_RECV_OWN_MSGS, 1), put(a, FRAME(BUSERROR, 1, 2, 3, 4, 5, 6, 7, 8)), take(a, 1))
CASE(written, a = raw("can0"), DO(write(a, FRAME(BUSERROR, 1, 2, 3, 4, 5, 6, 7, 8), 16)))
CASE(written_short, a = raw("can0"), DO(write(a, FRAME(BUSERROR, 1), 16)))
CASE(written_length_9, a = raw("can0"), DO(write(a, (&(struct can_frame){.can_id = BUSERROR, .len = 9}), 16)))
CASE(written_fd, a = raw("can0"), with_fd(a), DO(write(a, FD(BUSERROR, 0, 1), 72)))
CASE(written_by_bcm, a = bcm("can0"), TELL(a, ONE(BUSERROR, 1), .opcode = TX_SEND, .nframes = 1))
CASE(by_filter, a = raw("can0"), b = raw("can0"), FILTER(a, {CAN_ERR_FLAG, CAN_ERR_FLAG}, {LAST, 0x7FF}),
     put(b, FRAME(BUSERROR, 1)), PUT(b, LAST), take_to(a, LAST))
CASE(filter_none, a = raw("can0"), b = raw("can0"),
     setsockopt(a, SOL_CAN_RAW, CAN_RAW_ERR_FILTER, &every, sizeof every),
     setsockopt(a, SOL_CAN_RAW, CAN_RAW_FILTER, NULL, 0), put(b, FRAME(BUSERROR, 1)), take(a, 1))
CASE(mask_usual, a = raw("can0"), get(a, SOL_CAN_RAW, CAN_RAW_ERR_FILTER, 4))
CASE(mask_cut, a = raw("can0"), DO(set(a, SOL_CAN_RAW, CAN_RAW_ERR_FILTER, -1)),
     get(a, SOL_CAN_RAW, CAN_RAW_ERR_FILTER, 4))
CASE(mask_short, a = raw("can0"), SETS(a, SOL_CAN_RAW, CAN_RAW_ERR_FILTER, &every, 3))
CASE(mask_long, a = raw("can0"), SETS(a, SOL_CAN_RAW, CAN_RAW_ERR_FILTER, &(uint64_t){1}, 8))
CASE(mask_read_short, a = raw("can0"), set(a, SOL_CAN_RAW, CAN_RAW_ERR_FILTER, 0x1FFFFFFF),
     get(a, SOL_CAN_RAW, CAN_RAW_ERR_FILTER, 2))
CASE(mask_read_long, a = raw("can0"), get(a, SOL_CAN_RAW, CAN_RAW_ERR_FILTER, 8))
