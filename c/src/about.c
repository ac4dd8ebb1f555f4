/* What the library is, and what its statuses mean, in the header's words. The Makefile says how it was built (GV_KIND), since both kinds
 * share this file. */
#include "gotsavena.h"

int gv_version(void) { return GV_VERSION; }

const char *gv_build(void) { return GV_KIND; }

const char *gv_strerror(gv_status status) {
  switch (status) {
    case GV_OK: return "the call did what it says";
    case GV_INVALID: return "a null pointer, a number out of its range, or a struct's size";
    case GV_NO_MEMORY: return "memory was refused";
    case GV_CONNECTION_CLOSED: return "the connection is closed";
    case GV_NO_SUCH_STREAM: return "the stream isn't open";
    case GV_WRONG_DIRECTION: return "the stream is unidirectional, and has no such half here";
    case GV_SENDING_FINISHED: return "the stream was finished here";
    case GV_SENDING_RESET: return "the stream was reset here, or stopped by the peer";
    case GV_STREAM_LIMIT: return "as many streams were opened as the peer permits";
    case GV_NUMBERS_EXHAUSTED: return "the last packet number was used, and none may be used twice";
    case GV_NOT_OUTSTANDING: return "no such packet is outstanding";
    case GV_DUPLICATE: return "the packet number was processed before";
    case GV_TOO_OLD: return "the packet number is below those whose history is kept";
    case GV_CLOSED_BY_PEER: return "the peer closed the connection";
    case GV_PROTOCOL_ERROR: return "the peer broke a rule, and this endpoint is closed";
    case GV_NONE: return "there is none";
    case GV_NOTHING_YET: return "nothing to read yet";
    case GV_END_OF_STREAM: return "all was read";
    case GV_RESET_BY_PEER: return "the peer reset the stream";
    case GV_OUT_OF_RANGE: return "a setting or a limit is out of its range";
    case GV_TOO_MANY_STREAMS: return "the peer permits more streams than there can be";
    case GV_BAD_FRAME: return "no frame stands there";
    case GV_NO_ROOM: return "there is no room for it";
    case GV_NOT_GIVEN: return "no packet was made yet that has the token, or it is of another epoch";
  }
  return "no status";
}
