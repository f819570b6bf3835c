/* Hoachulim's exported functions. Each answers every input, keeps no state, and writes nothing but `out` and a lent buffer.
   They are proved (crates/face); link target/library/TARGET/libface.a, which `./library TARGET` writes for a processor.

   A number is 0, or that of the refusal; out[0] is its place and out[1] its step, each 0 where it has none.
   The two controllers answer a mode, and their out has the number before these.
   Every number is 64 bits wide, answers and lengths too, so that one proved module serves every processor.

   Stack, in bytes, measured on an emulated Cortex-M4, each on a table of form 3 that is halved twelve times: plant 2,480, sheet 12,576, control 13,240,
   start_control 14,568, whatever the plant; start_check 19,424 and start_make 54,652 on a plant of one mode; check 70,912, relay 71,752 and make 165,412 on
   one of 129, whose larger arrays they keep. On tables of form 1, split six times at most, each takes 5,280 less, and a maker 5,136. On tables of form 2,
   down which a call goes in a loop, control takes 3,088 and start_control 4,416. */
#ifndef HOACHULIM_H
#define HOACHULIM_H

#include <stdint.h>

#ifdef __cplusplus
extern "C" {
#endif

/* A plant file. */
uint64_t hoachulim_plant(const uint8_t *plant, uint64_t plant_length, uint64_t out[2]);

/* The plant of a sheet, made into a lent buffer; no plant made of a sheet has more than 1,183 bytes. out[0] is the length written where the number is 0.
   Finished, only the plant's bytes are changed; refused, the whole buffer is zeros. */
uint64_t hoachulim_sheet(const uint8_t *sheet, uint64_t sheet_length,
                         uint8_t *buffer, uint64_t buffer_length, uint64_t out[2]);

/* A table file, of form 1, 2 or 3 as its header says, for a plant file. */
uint64_t hoachulim_check(const uint8_t *plant, uint64_t plant_length,
                         const uint8_t *table, uint64_t table_length, uint64_t out[2]);

/* The table of a plant, made into a lent buffer; no table has more than 58,965 bytes. The form is 1, which splits a box along all sides at once; 2,
   which does so too and tells lengths, so that a call reads the way to its tile alone; or 3, which halves the longest side. Any other is refused by 2, after
   the plant. out[0] is the length written where the number is 0.
   Finished, only the table's bytes are changed; refused, the whole buffer is zeros. */
uint64_t hoachulim_make(const uint8_t *plant, uint64_t plant_length, uint64_t form,
                        uint8_t *buffer, uint64_t buffer_length, uint64_t out[2]);

/* A table file that hoachulim_check accepts for a plant file, as one of another form, into a lent buffer that does not overlap it: the same boxes and modes.
   Forms 1 and 2 are turned into each other, and any table into its own form; any other form is refused by 2, after all that hoachulim_check refuses.
   out and buffer as for hoachulim_make. */
uint64_t hoachulim_relay(const uint8_t *plant, uint64_t plant_length,
                         const uint8_t *table, uint64_t table_length, uint64_t form,
                         uint8_t *buffer, uint64_t buffer_length, uint64_t out[2]);

/* One call of the controller, once each sample. Idle is place 0, left 0; hand back out[3] and out[4] at the next call.
   x0..x3 is the reading; numbers beyond the plant's rooms are ignored.
   The mode to apply, 0..255, or 65535 where the call is refused; out: the refusal's number, place and step, the next place, the next left.
   A refused call leaves the controller idle: out[3] and out[4] are 0. */
uint64_t hoachulim_control(const uint8_t *plant, uint64_t plant_length,
                           const uint8_t *table, uint64_t table_length,
                           uint64_t place, uint64_t left,
                           int64_t x0, int64_t x1, int64_t x2, int64_t x3, uint64_t out[5]);

/* Start files, for rooms that begin far outside R: a chain of boxes R = R0, R1, .. Rm, each holding the one before, all in S, and for each box a table whose
   patterns end in the box below it.

   The start file of a plant and a chain, made into a lent buffer; no start file has more than 530,810 bytes. A chain is form 1, m and the edges of
   R1..Rm. The form is that of every table in it; form, out and buffer as for hoachulim_make; of refusal 9 out[0] is the first index without a table. */
uint64_t hoachulim_start_make(const uint8_t *plant, uint64_t plant_length,
                              const uint8_t *chain, uint64_t chain_length, uint64_t form,
                              uint8_t *buffer, uint64_t buffer_length, uint64_t out[2]);

/* A start file for a plant file. */
uint64_t hoachulim_start_check(const uint8_t *plant, uint64_t plant_length,
                               const uint8_t *start, uint64_t start_length, uint64_t out[2]);

/* One call of the controller on a start file, once each sample. Idle is index 0, place 0, left 0; hand back out[3], out[4] and out[5] at the next call.
   The mode to apply, 0..255, or 65535 where the call is refused; out: the refusal's number, place and step, the next index, the next place, the next left.
   A refused call leaves the controller idle: out[3], out[4] and out[5] are 0. */
uint64_t hoachulim_start_control(const uint8_t *plant, uint64_t plant_length,
                                 const uint8_t *start, uint64_t start_length,
                                 uint64_t index, uint64_t place, uint64_t left,
                                 int64_t x0, int64_t x1, int64_t x2, int64_t x3, uint64_t out[6]);

#ifdef __cplusplus
}
#endif

#endif
