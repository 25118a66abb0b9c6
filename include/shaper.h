/* The voice card's shaper, for C. Link libcard.a (`tools/library`). A block's call has many arguments:
 * shaper_block.h takes them as a struct that is filled in by name.
 *
 * A buffer is a pointer and a count of its numbers. Buffers by frame, spans and what lanes carry hold rows of `lanes`
 * numbers: a lane's number in a row lies at row * lanes + lane. Of `lanes` lanes (1 to SHAPER_MAX_LANES) the first
 * `active` take part in a call, possibly none; no cell of another lane is touched, nor any past the lengths below. The
 * library keeps no pointer past a call, allocates nothing and has no state of its own: buffers are the caller's before,
 * during and after a call, and calls on different buffers may run at the same time.
 *
 * In every call, also one that is turned down, the caller sees to this; where it doesn't, nothing is promised:
 *   - A pointer has as many numbers behind it as its count says. It is NULL only with count 0, and with count 0 it may
 *     be any.
 *   - It is aligned as its type, float, uint32_t or uint8_t, and needs no more than that.
 *   - A buffer that is written overlaps no other buffer of the call. Those that are read may.
 *   - No one else writes a buffer of the call while it runs, or reads one that it writes.
 *   - The thread's floating-point mode is C's default: to nearest, and subnormal numbers are kept.
 * Beyond that arguments may be any, NaN and infinities too. A count need not be a multiple of anything: what is longer
 * than asked for is left alone (but a picture, of which every number is a point, and a patch file that is read, which
 * counts to its last byte), what is shorter is refused, an empty buffer too where something is asked for, unless it may
 * be absent.
 */
#ifndef SHAPER_H
#define SHAPER_H

#include <stddef.h>
#include <stdint.h>

#ifdef __cplusplus
extern "C" {
#endif

/* The modes, by their numbers. docs/MODES.md says of each what its amount and its character do, and what it hears;
 * shaper_names.h has their names. */
enum shaper_mode {
    SHAPER_OFF = 0,

    /* Where the cycle is read. */
    SHAPER_SYNC = 1, SHAPER_PINCH_IN = 2, SHAPER_PINCH_OUT = 3, SHAPER_PINCH = 4, SHAPER_PULSE_WIDTH = 5,
    SHAPER_LEAN_RIGHT = 6, SHAPER_LEAN_LEFT = 7, SHAPER_LEAN = 8, SHAPER_FLIP = 9, SHAPER_MIRROR = 10,
    SHAPER_REMAP_DRAWN = 11, SHAPER_REMAP_MIRRORED = 12, SHAPER_REMAP_SINE = 13, SHAPER_REMAP_QUAD = 14,
    SHAPER_QUANTISE = 15, SHAPER_ODD_EVEN = 16,

    /* Filters. */
    SHAPER_LOW_PASS = 17, SHAPER_HIGH_PASS = 18,

    /* Distortions. */
    SHAPER_VALVE = 19, SHAPER_SOFT_CLIP = 20, SHAPER_HARD_CLIP = 21, SHAPER_DIODE1 = 22, SHAPER_DIODE2 = 23,
    SHAPER_FOLD = 24, SHAPER_SINE_FOLD = 25, SHAPER_ZERO_SQUARE = 26, SHAPER_ASYMMETRIC = 27, SHAPER_RECTIFY = 28,
    SHAPER_SINE_SHAPER = 29, SHAPER_PEDAL = 30, SHAPER_TAPE = 31, SHAPER_SOFT_SATURATE = 32,

    /* Frequency modulation: through zero, exponential, linear. */
    SHAPER_FM1 = 33, SHAPER_FM2 = 34, SHAPER_FM_NOISE = 35, SHAPER_FM_SUB = 36, SHAPER_FM_FILTER1 = 37,
    SHAPER_FM_FILTER2 = 38,
    SHAPER_FM_EXP1 = 39, SHAPER_FM_EXP2 = 40, SHAPER_FM_EXP_NOISE = 41, SHAPER_FM_EXP_SUB = 42,
    SHAPER_FM_EXP_FILTER1 = 43, SHAPER_FM_EXP_FILTER2 = 44,
    SHAPER_FM_LIN1 = 45, SHAPER_FM_LIN2 = 46, SHAPER_FM_LIN_NOISE = 47, SHAPER_FM_LIN_SUB = 48,
    SHAPER_FM_LIN_FILTER1 = 49, SHAPER_FM_LIN_FILTER2 = 50,

    /* Phase distortion. */
    SHAPER_PD1 = 51, SHAPER_PD2 = 52, SHAPER_PD_NOISE = 53, SHAPER_PD_SUB = 54, SHAPER_PD_FILTER1 = 55,
    SHAPER_PD_FILTER2 = 56, SHAPER_PD_SELF = 57,

    /* Amplitude and ring modulation. */
    SHAPER_AM1 = 58, SHAPER_AM2 = 59, SHAPER_AM_NOISE = 60, SHAPER_AM_SUB = 61, SHAPER_AM_FILTER1 = 62,
    SHAPER_AM_FILTER2 = 63,
    SHAPER_RM1 = 64, SHAPER_RM2 = 65, SHAPER_RM_NOISE = 66, SHAPER_RM_SUB = 67, SHAPER_RM_FILTER1 = 68,
    SHAPER_RM_FILTER2 = 69
};

/* What a call may be asked for. */
#define SHAPER_MODES 70        /* modes are below this */
#define SHAPER_MAX_FACTOR 8    /* factors are 1, 2, 4 and this */
#define SHAPER_MAX_LANES 64    /* lanes are 1 to this */
#define SHAPER_MAX_FRAMES 4096 /* a block's host frames are 0 to this */
#define SHAPER_POINTS 4096     /* a picture's points are 0 to this */
#define SHAPER_MIN_RATE 8000   /* host rates are this to SHAPER_MAX_RATE, in whole hertz */
#define SHAPER_MAX_RATE 192000
#define SHAPER_DESIGNS 3    /* the decimator's */
#define SHAPER_MAX_COUNT 12 /* a design's count is 1 to this */
#define SHAPER_SLOTS 2      /* slot 1 shapes what slot 0 made */
#define SHAPER_SUB_BLOCK 32 /* host frames that share a row of a span */
#define SHAPER_FILE_LIMIT 65536 /* a patch file's bytes are 0 to this */
#define SHAPER_RECORD_BYTES 14  /* a patch file's record, with the two bytes of its length */
#define SHAPER_PATCH_BYTES 28   /* what shaper_patch_write writes: a record for each slot */
#define SHAPER_MAX_HUNDREDTHS 10000 /* amounts in hundredths of a percent are 0 to this */

/* How many numbers a buffer has at least, by the buffer's name: an array's size where the arguments are constant. Those
 * with arguments are of type size_t, and work each argument out once. */
#define SHAPER_CURVE 1025
#define SHAPER_CYCLE 2048
#define SHAPER_COEFS (SHAPER_DESIGNS * SHAPER_MAX_COUNT)
#define SHAPER_NUMBERS 13 /* the sine's five and the arctangent's eight */

/* By lane. */
#define SHAPER_BASE(lanes) ((size_t)(lanes))
#define SHAPER_PAIRS(lanes) ((size_t)4 * (size_t)(lanes))
#define SHAPER_FM(lanes) ((size_t)2 * (size_t)(lanes))
#define SHAPER_LAST(lanes) ((size_t)(lanes))
#define SHAPER_STATE(lanes) ((size_t)2 * SHAPER_COEFS * (size_t)(lanes))

/* By host frame of the block. */
#define SHAPER_MOD(frames, lanes) ((size_t)(frames) * (size_t)(lanes))
#define SHAPER_SOURCE(frames, lanes) ((size_t)(frames) * (size_t)(lanes))
#define SHAPER_OUTPUT(frames, lanes) ((size_t)(frames) * (size_t)(lanes))

/* By sub-block, the last of which may be shorter: inner, stretch and add, each. */
#define SHAPER_SPAN(frames, lanes) (((size_t)(frames) + (SHAPER_SUB_BLOCK - 1)) / SHAPER_SUB_BLOCK * (size_t)(lanes))

/* By rendered frame: of the block, of a range of `count` host frames, of a decimation. */
#define SHAPER_WORDS(frames, factor, lanes) ((size_t)(frames) * (size_t)(factor) * (size_t)(lanes))
#define SHAPER_STEPS(frames, factor, lanes) ((size_t)(frames) * (size_t)(factor) * (size_t)(lanes))
#define SHAPER_WORK(count, factor, lanes) ((size_t)(count) * (size_t)(factor) * (size_t)(lanes))
#define SHAPER_BUFFER(frames, factor, lanes) ((size_t)(frames) * (size_t)(factor) * (size_t)(lanes))

/* Why a call is turned down: by the first of these lines that holds, for the arguments that it has. */
enum shaper_refusal {
    SHAPER_ACCEPTED = 0,
    SHAPER_BAD_MODE = 1,   /* a mode is above 69 (of a patch file it is SHAPER_BAD_FIELD) or, where an amount is looked
                            * for, no distortion */
    SHAPER_BAD_FACTOR = 2, /* the factor is not 1, 2, 4 or 8 */
    SHAPER_BAD_LANES = 3,  /* the lane count is not 1..64, the active lanes are more, or a single lane is not active */
    SHAPER_BAD_FRAMES = 4, /* a block above 4,096 frames, a range past its end, a single frame outside its range, or a
                            * picture above 4,096 points */
    SHAPER_BAD_RATE = 5,   /* the host rate is not 8,000..192,000 */
    SHAPER_BAD_DESIGN = 6, /* a design's count is not 1..12 (of any of the three, whether the factor uses it or not) */
    SHAPER_SHORT_READ = 7, /* a buffer that is read is too short */
    SHAPER_SHORT_WRITE = 8, /* a buffer that is written is too short */

    /* Patch files: of the first record that any holds for, the first of the three; a writer's 8 comes after its 11. */
    SHAPER_BAD_LENGTH = 9, /* the file is above 65,536 bytes (tested before all records); a record is cut short, or its
                            * length is below 2 or wrong for a known kind */
    SHAPER_BAD_KIND = 10,  /* a record's kind is not known */
    SHAPER_BAD_FIELD = 11, /* a slot above 1, a mode above 69, hundredths or ten-thousandths above 10,000 */

    /* A search, after 1 and 7. */
    SHAPER_NO_AMOUNT = 12 /* no amount gives the level */
};

/* What a call answers: SHAPER_ACCEPTED and its frames, or its refusal's number and no frames, and then every buffer is
 * as it was. */
struct shaper_answer {
    uint32_t number;
    uint32_t frames;
};

/* The same with a value, which is 0 where the call is turned down. */
struct shaper_valued {
    uint32_t number;
    uint32_t frames;
    float value;
};

/* Works out, once for a block, how steep each lane's slots read the cycle: three spans, each with a row for every
 * sub-block of 32 host frames counted from the block's start, frames / 32 rounded up.
 *
 *   mode0, mode1      the slots' modes (enum shaper_mode)
 *   factor            1, 2, 4 or 8: rendered frames to a host frame
 *   lanes, active     lanes 0 to active - 1 are prepared
 *   frames            the block's host frames, 0 to SHAPER_MAX_FRAMES
 *   rate              the host rate in whole hertz, SHAPER_MIN_RATE to SHAPER_MAX_RATE
 *   base0, base1      read, at least SHAPER_BASE(lanes): a slot's amount in percent, knob plus the lane's offset
 *   mod0, mod1        read, at least SHAPER_MOD(frames, lanes), or empty where the slot has none: what is added to the
 *                     amount, by host frame
 *   source0, source1  read, at least SHAPER_SOURCE(frames, lanes), or empty: what the slot hears. An empty one is
 *                     absent, and a modulated mode then does nothing. SHAPER_PD_SELF hears the lane's own last sample,
 *                     and only where a source is given; of that source's numbers only `add` is made
 *   curve             read, at least SHAPER_CURVE: the remap curve's values
 *   inner             written, at least SHAPER_SPAN(frames, lanes): slot 1's steepest slope. A block run reads it
 *   stretch, add      written, the same: the steepest slope of both slots (times the factor where a slot is a
 *                     distortion), and what the modes with a source add to it, in words a rendered frame.
 *                     shaper_stretch reads them
 *
 * Answers the block's frames. */
struct shaper_answer shaper_prepare(
    uint32_t mode0, uint32_t mode1, uint32_t factor, uint32_t lanes, uint32_t active, uint32_t frames, uint32_t rate,
    const float *base0, size_t base0_length, const float *base1, size_t base1_length, const float *mod0,
    size_t mod0_length, const float *mod1, size_t mod1_length, const float *source0, size_t source0_length,
    const float *source1, size_t source1_length, const float *curve, size_t curve_length, float *inner,
    size_t inner_length, float *stretch, size_t stretch_length, float *add, size_t add_length);

/* How much faster than its phase a lane reads over some rendered frames of a range: at least 1, if the call is
 * accepted. A host picks a band-limited cycle by it.
 *
 *   factor, lanes       1, 2, 4 or 8; 1 to SHAPER_MAX_LANES
 *   active, lane        at most lanes; a single lane, below active
 *   frames              the block's host frames, 0 to SHAPER_MAX_FRAMES
 *   first, count        the range: its first host frame, and how many
 *   asked_first, asked  the rendered frames, counted from the range's start (count * factor of them lie in it). Asked
 *                       for none, the call looks at asked_first, which must lie in the range as well
 *   step                the lane's phase step, in words a rendered frame
 *   stretch, add        read, the spans that shaper_prepare wrote for the block, at least SHAPER_SPAN(frames, lanes)
 *                       each
 *
 * Answers the range's frames. */
struct shaper_valued shaper_stretch(
    uint32_t factor, uint32_t lanes, uint32_t active, uint32_t lane, uint32_t frames, uint32_t first, uint32_t count,
    uint32_t asked_first, uint32_t asked, uint32_t step, const float *stretch, size_t stretch_length, const float *add,
    size_t add_length);

/* Renders host frames first to first + count - 1 of a block, at `factor` times the host rate, and decimates them to the
 * host rate: for each rendered frame and each active lane a list of reads of the cycle, their sum, and the sample
 * shaped by slot 0 and then slot 1.
 *
 *   mode0, mode1            the slots' modes (enum shaper_mode)
 *   character0, character1  the slots' characters
 *   factor, lanes, active   as in shaper_decimate
 *   frames                  the block's host frames, 0 to SHAPER_MAX_FRAMES
 *   first, count            the range; first + count is at most frames. It may be empty
 *   rate                    the host rate in whole hertz, SHAPER_MIN_RATE to SHAPER_MAX_RATE
 *   count0..count2, coefs   the designs, as in shaper_decimate
 *   numbers                 read, at least SHAPER_NUMBERS: the sine's five numbers and the arctangent's eight
 *                           (shaper_numbers)
 *   base0 .. curve          read, as in shaper_prepare
 *   cycle                   read, at least SHAPER_CYCLE: one cycle of the wave. A phase word lies at entry word / 2^21,
 *                           rounded down, and is read between it and the next, in a straight line; the one after entry
 *                           2047 is entry 0. Further entries are not looked at
 *   words, steps            read, at least SHAPER_WORDS(frames, factor, lanes) each: phase words (2^32 is one cycle)
 *                           and how far they move in a rendered frame, by rendered frame of the block
 *   inner                   read, the span that shaper_prepare wrote for the block, at least SHAPER_SPAN(frames, lanes)
 *   output                  written, at least SHAPER_OUTPUT(frames, lanes): the rows first to first + count - 1 of the
 *                           active lanes, by host frame of the block
 *   work                    written, at least SHAPER_WORK(count, factor, lanes): scratch for the rendered frames of the
 *                           range, whose contents need not be kept
 *   pairs, fm, last, state  written, at least SHAPER_PAIRS(lanes), SHAPER_FM(lanes), SHAPER_LAST(lanes) and
 *                           SHAPER_STATE(lanes): what each lane carries from one call to the next, its filters'
 *                           numbers, its FM offsets in cycles, the raw sample that it read last (kept only where one
 *                           slot's mode is SHAPER_PD_SELF and the other acts on the sample), and the decimator's cells.
 *                           Zeros start a lane
 *
 * A read is first + (next - first) * fraction, the fraction being the word's low 21 bits / 2^21, and each operation is
 * rounded by itself. At fraction 0 a finite entry reads as itself if the next is finite and their difference is no
 * larger than a float can be, but -0 reads as +0 unless the next is below it. An entry that is infinite or NaN reads as
 * NaN at every fraction, and so does one before a NaN. A finite entry before an infinity reads as NaN at fraction 0 and
 * as that infinity past it; one whose difference to a finite next is too large reads as NaN at fraction 0 and as an
 * infinity of the next's sign past it.
 *
 * A block may be run in any consecutive ranges, with refused calls among them: a lane that is active in all accepted
 * calls has the same output and the same state as from one call, NaN counting as one value, provided that the other
 * arguments stay and the spans are prepared once for the block. Output rows outside the range are not touched. Answers
 * the range's frames. */
struct shaper_answer shaper_block_run(
    uint32_t mode0, uint32_t mode1, float character0, float character1, uint32_t factor, uint32_t lanes,
    uint32_t active, uint32_t frames, uint32_t first, uint32_t count, uint32_t rate, uint32_t count0, uint32_t count1,
    uint32_t count2, const float *coefs, size_t coefs_length, const float *numbers, size_t numbers_length,
    const float *base0, size_t base0_length, const float *base1, size_t base1_length, const float *mod0,
    size_t mod0_length, const float *mod1, size_t mod1_length, const float *source0, size_t source0_length,
    const float *source1, size_t source1_length, const float *curve, size_t curve_length, const float *cycle,
    size_t cycle_length, const uint32_t *words, size_t words_length, const uint32_t *steps, size_t steps_length,
    const float *inner, size_t inner_length, float *output, size_t output_length, float *work, size_t work_length,
    float *pairs, size_t pairs_length, float *fm, size_t fm_length, float *last, size_t last_length, float *state,
    size_t state_length);

/* One lane's whole share of a range: its rendered frames, their decimation, the copy to the range's output rows, and
 * its state. For tracing a lane in one stretch, with the other lanes run before or after it.
 *
 *   lane        the lane, below active
 *   all others  as in shaper_block_run; lengths go by `lanes`, though one lane's cells are used
 *
 * Of the six buffers that a run writes it changes cells of this lane alone: output rows of the range, work rows, its
 * state. It is turned down as shaper_block_run is, by the same lines in the same order, and by SHAPER_BAD_LANES also
 * where `lane` is not below `active`: with no active lane every call is turned down. An empty range is accepted and
 * changes nothing. Answers the range's frames.
 *
 * Called with the same arguments once for each active lane, in any order, it leaves all six buffers as one
 * shaper_block_run does, NaN counting as one value; and where that is turned down, so is each of these calls, with the
 * same number. To its lane a call is as good as a run of the range: a block may be made in consecutive ranges by calls
 * of both kinds, and a lane may go through several ranges before the next one starts. Two calls at the same time on the
 * same buffers are two writers of them, even for different lanes: what is said above of writers forbids it.
 *
 * After an accepted call the lane's first `count` rows of `work` are its output rows of the range. At factor 1 these
 * are its rendered samples too. Above that the decimation, which is done in place, has overwritten the first half of
 * the range's rendered samples; rows from count * factor / 2 on still hold the others, and no buffer keeps them all. */
struct shaper_answer shaper_lane_run(
    uint32_t mode0, uint32_t mode1, float character0, float character1, uint32_t factor, uint32_t lanes,
    uint32_t active, uint32_t lane, uint32_t frames, uint32_t first, uint32_t count, uint32_t rate, uint32_t count0,
    uint32_t count1, uint32_t count2, const float *coefs, size_t coefs_length, const float *numbers,
    size_t numbers_length, const float *base0, size_t base0_length, const float *base1, size_t base1_length,
    const float *mod0, size_t mod0_length, const float *mod1, size_t mod1_length, const float *source0,
    size_t source0_length, const float *source1, size_t source1_length, const float *curve, size_t curve_length,
    const float *cycle, size_t cycle_length, const uint32_t *words, size_t words_length, const uint32_t *steps,
    size_t steps_length, const float *inner, size_t inner_length, float *output, size_t output_length, float *work,
    size_t work_length, float *pairs, size_t pairs_length, float *fm, size_t fm_length, float *last, size_t last_length,
    float *state, size_t state_length);

/* Decimates `buffer` in place by `factor`.
 *
 *   factor          1, 2, 4 or 8; 1 changes nothing
 *   lanes           the numbers in a row, 1 to SHAPER_MAX_LANES
 *   active          lanes 0 to active - 1 are decimated, and no cell of another lane is touched; may be 0
 *   frames          output rows, 0 to SHAPER_MAX_FRAMES
 *   count0..count2  how many of its SHAPER_MAX_COUNT coefficients design 0, 1 and 2 uses, 1 to all of them
 *   coefs           read, at least SHAPER_COEFS: SHAPER_MAX_COUNT coefficients each of designs 0, 1 and 2. Design 0 is
 *                   for the last stage, the nearest to the output; factor 4 uses designs 1 and 0, factor 8 designs 2, 1
 *                   and 0, in this order
 *   buffer          written, at least SHAPER_BUFFER(frames, factor, lanes): frames * factor input rows, of which the
 *                   first `frames` become the result. The rows past it hold what the work in place left there
 *   state           written, at least SHAPER_STATE(lanes), zeros before the first call. It carries each lane's filters
 *                   from one call to the next: block d (72 / 3 = 24 rows for design d) has in row 2 * i section i's
 *                   last input and in row 2 * i + 1 its last output
 *
 * Cells past these lengths are not touched. A block may be decimated in any ranges of consecutive rows, with one state:
 * the results and the state are those of one call. */
struct shaper_answer shaper_decimate(
    uint32_t factor, uint32_t lanes, uint32_t active, uint32_t frames, uint32_t count0, uint32_t count1,
    uint32_t count2, const float *coefs, size_t coefs_length, float *buffer, size_t buffer_length, float *state,
    size_t state_length);

/* What a block needs that is made as one range: shaper_plan's answer. work, state, pairs, fm and last are the least
 * lengths that shaper_block_run accepts for these buffers. They go by `lanes`, however many are active. Where nothing
 * else is wrong, a run with all five at least so long is accepted, and one with any of them shorter is
 * SHAPER_SHORT_WRITE. A later version may have more fields at the end: a host is compiled with the header of the
 * library that it links. */
struct shaper_needs {
    uint32_t number; /* enum shaper_refusal; any but SHAPER_ACCEPTED comes with zeros */
    uint32_t frames; /* the block's */
    uint32_t work;   /* floats */
    uint32_t state;  /* floats */
    uint32_t pairs;  /* floats */
    uint32_t fm;     /* floats */
    uint32_t last;   /* floats */
    uint32_t reads;  /* the most reads of the cycle that the block makes, all active lanes together; each looks at two
                        entries */
    uint32_t steps;  /* the half-band sections' steps, all active lanes together; not the length of a run's `steps` */
};

/* Plans a block before there is memory for it.
 *
 *   factor, lanes, active, count0..count2   as in shaper_decimate
 *   frames                                  the block's host frames, 0 to SHAPER_MAX_FRAMES, all in one range
 *
 * Turned down by SHAPER_BAD_FACTOR, SHAPER_BAD_LANES, SHAPER_BAD_FRAMES or SHAPER_BAD_DESIGN, tested in this order; a
 * run's modes and rate are not asked for. Answers the block's frames. Output, the three spans and all that a run reads
 * are not in the plan; the length macros above have theirs. Whatever else the block has, it makes no more reads than
 * `reads`, and with SHAPER_ODD_EVEN in both slots it makes just so many: 4 for each rendered frame of each active lane.
 * A step is one section on one output frame of its stage; at factor 1 there is none. With no frame or no active lane,
 * reads and steps are 0 and the lengths are still what a run asks for. */
struct shaper_needs shaper_plan(
    uint32_t factor, uint32_t lanes, uint32_t active, uint32_t frames, uint32_t count0, uint32_t count1,
    uint32_t count2);

/* Draws one cycle of the shaped wave, for a panel: the cycle from phase 0 on, through both slots as their knobs stand,
 * at as many points as the picture has.
 *
 *   mode0, mode1            the slots' modes (enum shaper_mode; shaper_names.h has their names)
 *   character0, character1  the slots' characters, kept to 0..1; of NaN a filter makes NaN
 *   amount0, amount1        the slots' amounts in percent, kept to 0..100; NaN stays NaN
 *   numbers, curve, cycle   read, as in shaper_block_run, whatever the modes
 *   picture                 written, 0 to SHAPER_POINTS points: every number of the buffer is one, and what stood there
 *                           does not matter
 *
 * Point i, counted from 0, lies at phase i / points. Edges are half a point wide, and a point on one lies between its
 * two sides; in slot 0, behind a map of slot 1, so wide only where that map is steepest. Sync's character softens its
 * restart as it does in the sound. Filters are drawn after 15 cycles, from silence on; their cutoff is at most 0.45
 * cycles a point, and a higher one is drawn as that. A mode with a source draws as in a run where the source is absent:
 * it leaves what is read. Nothing of a lane or a block takes part, and a panel may draw while blocks run. Turned
 * down by SHAPER_BAD_MODE, SHAPER_BAD_FRAMES or SHAPER_SHORT_READ, tested in this order, an empty picture as any other.
 * Answers the points as its frames. */
struct shaper_answer shaper_preview(
    uint32_t mode0, uint32_t mode1, float character0, float character1, float amount0, float amount1,
    const float *numbers, size_t numbers_length, const float *curve, size_t curve_length, const float *cycle,
    size_t cycle_length, float *picture, size_t points);

/* Patch files. A file is 0 to SHAPER_FILE_LIMIT bytes of records, one after the other to its end. Numbers have their
 * low byte first. A record is a length of what follows it, a kind, and the kind's body; the one known kind is 1:
 *
 *     byte   0     2     4      5      6            8                 10            14
 *            |  12 |   1 | slot | mode | hundredths | ten-thousandths |    serial   |
 *
 * Slot 0 or 1; mode 0 to 69 (enum shaper_mode); the amount in hundredths of a percent and the character in
 * ten-thousandths, 0 to 10,000 each; any serial. Of each slot the record with the highest serial counts, of those with
 * the same serial the last in the file, and a slot that has none is SHAPER_OFF with zeros. So a maker changes a patch
 * by appending a record whose serial is at least the slot's highest.
 *
 * A file holds its patch whole or is turned away with none: for a length above the limit, whatever it holds, else for
 * its first record that is not right, by SHAPER_BAD_LENGTH, SHAPER_BAD_KIND or SHAPER_BAD_FIELD, tested in this order.
 * What stands behind that record is not looked at. A host lends a file whole; of one that may be longer than the limit
 * it need not hold more than SHAPER_FILE_LIMIT + 1 bytes. */

/* A slot of a patch: the file's numbers, and the floats that the card makes of them. */
struct shaper_patch_slot {
    uint32_t mode;
    uint32_t hundredths;      /* of a percent */
    uint32_t ten_thousandths; /* of the character */
    float amount;             /* hundredths / 100, in percent: as base0, base1 and amount0, amount1 have it */
    float character;          /* ten_thousandths / 10,000: as character0, character1 */
};

/* What a file holds, or SHAPER_BAD_LENGTH, _KIND or _FIELD with zeros in both slots. A later version may know more
 * kinds and have more fields in a slot: a host is compiled with the header of the library that it links. */
struct shaper_patch {
    uint32_t number; /* enum shaper_refusal */
    uint32_t at;     /* turned away for a record: the byte at which it starts, a multiple of 14; else 0 */
    struct shaper_patch_slot slot0;
    struct shaper_patch_slot slot1;
};

/* What writing answers: SHAPER_ACCEPTED and its bytes, or its refusal's number and none. */
struct shaper_written {
    uint32_t number;
    uint32_t bytes;
};

/* Whether two files hold the same patch: 1 or 0, and 0 where one is turned away. */
struct shaper_same {
    uint32_t number; /* SHAPER_ACCEPTED, or that of the first file that is turned away */
    uint32_t same;
};

/* Reads a patch file.
 *
 *   file  read, to its end or to the record that turns it away. It may be empty: both slots are then SHAPER_OFF */
struct shaper_patch shaper_patch_read(const uint8_t *file, size_t file_length);

/* Writes a patch file: slot 0's record and then slot 1's, of kind 1 and with serial 1, also for SHAPER_OFF. Reading its
 * bytes gives the patch back.
 *
 *   mode0, mode1                          0 to 69
 *   hundredths0, hundredths1              the amounts in hundredths of a percent, 0 to 10,000
 *   ten_thousandths0, ten_thousandths1    the characters in ten-thousandths, 0 to 10,000
 *   file                                  written, at least SHAPER_PATCH_BYTES, of which no more are touched
 *
 * Turned down by SHAPER_BAD_FIELD, for a mode too, and then SHAPER_SHORT_WRITE; then no byte is touched. */
struct shaper_written shaper_patch_write(
    uint32_t mode0, uint32_t hundredths0, uint32_t ten_thousandths0, uint32_t mode1, uint32_t hundredths1,
    uint32_t ten_thousandths1, uint8_t *file, size_t file_length);

/* Whether two files hold the same patch: both slots agree in mode and amount. Characters may differ. Two SHAPER_OFF
 * slots with other amounts are not the same. A file that is turned away holds no patch: it is the same as no file,
 * itself included.
 *
 *   a, b  read, as in shaper_patch_read; they may be the same buffer */
struct shaper_same shaper_patch_same(const uint8_t *a, size_t a_length, const uint8_t *b, size_t b_length);

/* What a search answers: SHAPER_ACCEPTED and the amount, or its refusal's number and 0. */
struct shaper_found {
    uint32_t number;
    uint32_t hundredths; /* of a percent, 0 to SHAPER_MAX_HUNDREDTHS */
};

/* Finds the amount that gives a level: the least one at which a distortion's curve makes of `sample` an output within
 * `tolerance` of `wanted`.
 *
 *   mode       a distortion, SHAPER_VALVE to SHAPER_SOFT_SATURATE
 *   sample     what the curve is given, before its drive
 *   wanted     the output that is looked for
 *   tolerance  how far from it the output may lie; just as far is within. With 0 or -0 the output must be equal, zeros
 *              of either sign being equal; below 0, or NaN, nothing is within
 *   numbers    read, at least SHAPER_NUMBERS, as in shaper_block_run, whatever the mode
 *
 * Amounts from 0 to SHAPER_MAX_HUNDREDTHS hundredths of a percent are tried one after another, up to the first that
 * serves, since a curve may come near the level, leave it and come back. An amount is the card's own: hundredths / 100,
 * as a patch file gives it, kept to 0..100 and times 0.01, as a block run takes it. As a slot's base it is
 * (float)hundredths / 100.0f.
 *
 * The curve is that of a single sample. shaper_preview draws it, but divides the percent by 100: some amounts then
 * differ in their last digit, and what is drawn of them by up to 1e-5 of the drive, in a fold by up to 1e-4, so that a
 * level found with a smaller tolerance may be drawn outside of it. A block run takes the curve's mean from one sample
 * to the next: the same at factor 1, from the second of equal samples on, where they are of ordinary size; at higher
 * factors the decimation rounds once more, by about 1e-6.
 *
 * How far an output lies from `wanted` is their difference as a float, without its sign. No amount counts where that is
 * NaN: none at all if `wanted` is NaN, and none whose output is NaN or the very infinity that is wanted. An infinite
 * tolerance takes every other distance, infinite ones too.
 *
 * Turned down by SHAPER_BAD_MODE, also for a mode that is no distortion, SHAPER_SHORT_READ or SHAPER_NO_AMOUNT, tested
 * in this order. The last comes after all 10,001 amounts: up to some hundreds of microseconds on a desktop processor,
 * some milliseconds where `sample` is subnormal. It is a call for a panel or an editor, which may make it while blocks
 * run, and not for each sample. */
struct shaper_found shaper_amount_for(
    uint32_t mode, float sample, float wanted, float tolerance, const float *numbers, size_t numbers_length);

/* The card's three designs: their coefficients as `coefs` takes them, and their counts. */
static const float shaper_card_coefs[SHAPER_COEFS] = {
    0.034332752f, 0.12848179f, 0.26047325f, 0.40524498f, 0.5431863f, 0.66346705f, 0.7630483f, 0.8440243f, 0.9112316f,
    0.9708499f, 0.0f, 0.0f,
    0.036116753f, 0.13707772f, 0.28504226f, 0.4614878f, 0.65648645f, 0.87495035f, 0.0f, 0.0f, 0.0f, 0.0f, 0.0f, 0.0f,
    0.035724986f, 0.13916272f, 0.30249274f, 0.5226143f, 0.81379634f, 0.0f, 0.0f, 0.0f, 0.0f, 0.0f, 0.0f, 0.0f};

static const uint32_t shaper_card_counts[SHAPER_DESIGNS] = {10, 6, 5};

/* The sine and arctangent numbers, as `numbers` takes them. */
static const float shaper_numbers[SHAPER_NUMBERS] = {
    1.0f, -0.16666648f, 0.008332899f, -0.0001980083f, 2.5903703e-6f,
    1.0f, -0.33333334f, 0.2f, -0.14285715f, 0.11111111f, -0.09090909f, 0.07692308f, -0.06666667f};

#ifdef __cplusplus
}
#endif

#endif
