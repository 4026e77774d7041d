/* The sample of crsf.h's text, run. hosts/test takes it out of the header as sample.inc. */
#include "crsf.h"

#include <stdio.h>
#include <string.h>

static unsigned frames, frame_bytes;
static uint64_t positions;

static void on_frame(uint64_t position, const uint8_t *frame, size_t len)
{
    frames += frame[0] == 0xC8;
    frame_bytes += (unsigned)len;
    positions += position;
}

#include "sample.inc"

int main(void)
{
    /* two frames, a byte that is not an address, a wrong length, a wrong check byte, and three bytes that wait */
    const uint8_t input[] = {0xC8, 2, 0, 0, 0x55, 0xC8, 2, 0, 0, 0xC8, 1, 0xC8, 2, 0, 1, 0xC8, 2, 0};
    for (size_t piece = 1; piece <= sizeof input; piece++) {
        crsf_state state = {0};
        frames = frame_bytes = 0;
        positions = 0;
        for (size_t from = 0; from < sizeof input; from += piece)
            if (take(&state, input + from, sizeof input - from < piece ? sizeof input - from : piece) != 0)
                return 1;
        if (frames != 2 || frame_bytes != 8 || positions != 0 + 5 || crsf_held_count(&state).len != 3 || crsf_position_of(&state).position != 15)
            return 1;
    }
    /* every state, at 0 and near the last position: it ends, with 8 where the state is not valid, with 12 where there is no position behind the input,
     * and then nothing has changed */
    for (unsigned start = 0; start < 256; start++)
        for (unsigned end = 0; end < 256; end++)
            for (unsigned last = 0; last < 4; last++) {
                crsf_state state = {0}, before;
                state.start = (uint8_t)start;
                state.end = (uint8_t)end;
                memset(state.position, last ? 0xFF : 0, sizeof state.position);
                state.position[7] -= (uint8_t)(last * 20);
                before = state;
                const int valid = start <= end && end <= 64;
                const int said = !valid ? CRSF_BAD_STATE : last && last * 20 < end - start + sizeof input ? CRSF_POSITION_RANGE : 0;
                if (take(&state, input, sizeof input) != said)
                    return 1;
                if (said != 0 && memcmp(&state, &before, sizeof state) != 0)
                    return 1;
            }
    puts("the sample ends on every answer");
    return 0;
}
